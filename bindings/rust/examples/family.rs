//! Four processes, threads over channels, whose reports go to standard output: family | recline run. A message goes round them three times, and
//! each takes a checkpoint after each receipt. Then b, c and d retire into a.
use recline::Process;
use std::sync::mpsc::{channel, Receiver, Sender};
use std::{error::Error, thread};

fn pass_on(process: &mut Process, from: &Receiver<String>, to: &Sender<String>) -> Result<(), Box<dyn Error>> {
    for _ in 0..3 {
        process.receive(&from.recv()?)?;
        println!("{}", process.check()?);
        let _ = to.send(process.send()?); // the last one has nobody who receives it
    }
    Ok(())
}
fn end(start: String, from: Receiver<String>, to: Sender<String>, retirements: Sender<String>) -> Result<(), Box<dyn Error>> {
    let mut process = Process::born(&start)?;
    pass_on(&mut process, &from, &to)?;
    let (line, retirement) = process.retire("a")?;
    println!("{line}");
    Ok(retirements.send(retirement)?)
}
fn main() -> Result<(), Box<dyn Error>> {
    let (mut a, line) = Process::root("a")?;
    println!("{line}");
    let ((first, mut from), (retirements, ended)) = (channel(), channel());
    for name in ["b", "c", "d"] {
        let (line, start) = a.fork(name)?;
        println!("{line}");
        let ((to, next), retirements) = (channel(), retirements.clone());
        let source = std::mem::replace(&mut from, next);
        thread::spawn(move || end(start, source, to, retirements).expect("the process comes to its end"));
    }
    first.send(a.send()?)?;
    pass_on(&mut a, &from, &first)?;
    for _ in 0..3 {
        println!("{}", a.absorb(&ended.recv()?)?);
    }
    Ok(())
}
