//! Calls the library through the crate.

use recline::{Fault, Process};
use std::thread;

/// What stands in docs/STAMPING.md: two processes, two messages, and an end.
#[test]
fn example() -> Result<(), Fault> {
    let (mut a, begin) = Process::root("a")?;
    assert_eq!(begin, "BEGIN a");
    let (fork, start) = a.fork("b")?;
    assert_eq!(fork, "FORK a 1 1;1 (1,0) b (0,1)");
    let mut b = Process::born(&start)?;
    assert_eq!(a.check()?, "CHECK a 2 (1,0);(1,1,0)");
    let kept = a.state().to_string();
    a.receive(&b.send()?)?;
    assert_eq!(a.check()?, "CHECK a 3 (1,0);(2,2,0)");
    let sent = a.send()?;
    b.receive(&sent)?;
    assert_eq!(b.check()?, "CHECK b 1 (0,1);(5,0,1)");
    let (retire, retirement) = b.retire("a")?;
    assert_eq!(retire, "RETIRE b 2 (0,1);(5,0,2) a");
    assert_eq!(a.absorb(&retirement)?, "ABSORB a 4 1;(6,0,1) b");
    assert_eq!(a.absorb(&retirement), Err(Fault::Overlap));
    assert_eq!(b.check(), Err(Fault::NoState));
    let live = a.clone();
    assert_eq!(a.return_to("process b 0 0 (0,1);1", 1), Err(Fault::OtherProcess));
    assert_eq!(a, live);
    a.return_to(&kept, 1)?;
    assert_eq!(a.state(), "process a 1 2 (1,0);(1,1,0)");
    assert_eq!(a.return_to(&kept, 1), Err(Fault::Older));
    let mut crashed = Process::restored(&kept);
    crashed.returned(1)?;
    assert_eq!(crashed, a);
    assert_eq!(a.again("message 0 (1,1,0)")?, "message 1 (1,1,0)");
    assert_eq!(a.again(&sent), Err(Fault::NotKnown));
    assert_eq!(crashed, a);
    a.work()?;
    assert_eq!(a.present()?, "PRESENT@1 a 3 (1,0);(1,3,0)");
    assert_eq!(a.absorb(&retirement), Err(Fault::Older));
    assert_eq!(a.absorb_kept(&retirement)?, "ABSORB@1 a 4 1;(5,0,2) b");
    Ok(())
}

#[test]
fn faults_change_nothing() {
    assert_eq!(Process::root("A"), Err(Fault::NoName));
    assert_eq!(Process::restored("process a").check(), Err(Fault::NoState));
    assert_eq!(Process::born("process a 0 0 1;0"), Err(Fault::NoText));
    let state = "process a 0 0 (1,0);1";
    let mut a = Process::restored(state);
    assert_eq!(a.fork("a"), Err(Fault::NameTaken));
    assert_eq!(a.fork_small("b", 1), Err(Fault::TooDeep));
    assert_eq!(a.retire("a"), Err(Fault::SelfTarget));
    assert_eq!(a.receive("message 1 9"), Err(Fault::Newer));
    assert_eq!(a.again("message 1 0"), Err(Fault::Newer));
    assert_eq!(a.again("message 0"), Err(Fault::NoText));
    assert_eq!(a.absorb("retirement b 0 c (0,1);2"), Err(Fault::NotWaiting));
    assert_eq!(a.absorb("retirement a 0 a (0,1);2"), Err(Fault::NotWaiting));
    assert_eq!(a.returned(0), Err(Fault::Older));
    assert_eq!(a.return_to("message 0 1", 1), Err(Fault::NoText));
    assert_eq!(a.return_to("process a 0 0 1;0", 0), Err(Fault::Older));
    assert_eq!(a.return_to("process a 1 0 1;0", 1), Err(Fault::Older));
    assert_eq!(a.return_to("process b 0 0 1;0", 0), Err(Fault::Older));
    assert_eq!(a.return_to("process b 0 0 1;0", 1), Err(Fault::OtherProcess));
    assert_eq!(a.state(), state);
}

/// More than there is room for at first.
#[test]
fn long_texts() -> Result<(), Fault> {
    let (mut a, _) = Process::root("a")?;
    for k in 0..255 {
        let (_, start) = a.fork_small(&format!("c{k}"), 8)?;
        let mut child = Process::born(&start)?;
        for _ in 0..=k % 9 {
            child.work()?;
        }
        a.receive(&child.send()?)?;
    }
    assert!(a.state().len() > 1024);
    let message = a.send()?;
    assert_eq!(message.strip_prefix("message 0 "), a.state().split(';').nth(1));
    Ok(())
}

/// Calls from many threads at once give what they give one by one.
#[test]
fn threads() {
    fn run() -> Result<Process, Fault> {
        let (mut a, _) = Process::root("a")?;
        for k in 0..20 {
            a.fork(&format!("b{k}"))?;
        }
        Ok(a)
    }
    let running: Vec<_> = (0..8).map(|_| thread::spawn(run)).collect();
    for one in running {
        assert_eq!(one.join().expect("the thread ends"), run());
    }
}
