//! A process of a computation that recline coordinates, over `librecline.a`.
//!
//! ```no_run
//! use recline::Process;
//! # fn main() -> Result<(), recline::Fault> {
//! let (mut a, begin) = Process::root("a")?;         // the line "BEGIN a"
//! let (fork, start) = a.fork("b")?;                 // the line, and what the child starts from
//! let mut b = Process::born(&start)?;
//! let message = a.send()?;                          // what goes with a message
//! b.receive(&message)?;                             // Fault::Older or Fault::Newer where it is not of this epoch
//! let check = b.check()?;                           // b.state() is kept with the checkpoint: Process::restored(state)
//! # Ok(()) }
//! ```
//!
//! Each call is one step. A call that reports gives the line of its report. A call that is refused gives a [`Fault`], and the process stays as it
//! was.

mod sys;

use std::fmt;

/// Why a call is refused.
#[derive(Clone, Copy, Debug, PartialEq, Eq)]
#[repr(i64)]
pub enum Fault {
    /// Memory is wanting: try again.
    Memory = -1,
    /// The state is the text of no process.
    NoState = -2,
    /// What was handed over is the text of no message, start, retirement or process, whichever the call takes.
    NoText = -3,
    /// It is no name.
    NoName = -4,
    /// The process is to retire into itself.
    SelfTarget = -5,
    /// The child is to have the name of the process.
    NameTaken = -6,
    /// The retirement is into another process, or this one's own.
    NotWaiting = -7,
    /// It is of an older epoch, so it may be undone: a message is dropped; `absorb_kept` takes a retirement that was kept.
    Older = -8,
    /// It is of a newer epoch: keep it until this process has returned, too.
    Newer = -9,
    /// The process made 4,294,967,295 reports.
    Worn = -10,
    /// The id owns nothing.
    NothingOwned = -11,
    /// A value would be greater than 4,294,967,295.
    ClockFull = -12,
    /// An id would be deeper than 40, or there is no leaf of the depth that is asked for.
    TooDeep = -13,
    /// The process and the retired one own a point in common.
    Overlap = -14,
    /// The state that was kept is another process's.
    OtherProcess = -15,
    /// The message tells what the process does not know: it did not send it, or that is undone.
    NotKnown = -16,
}

const FAULTS: [Fault; 16] = [
    Fault::Memory,
    Fault::NoState,
    Fault::NoText,
    Fault::NoName,
    Fault::SelfTarget,
    Fault::NameTaken,
    Fault::NotWaiting,
    Fault::Older,
    Fault::Newer,
    Fault::Worn,
    Fault::NothingOwned,
    Fault::ClockFull,
    Fault::TooDeep,
    Fault::Overlap,
    Fault::OtherProcess,
    Fault::NotKnown,
];

impl fmt::Display for Fault {
    fn fmt(&self, f: &mut fmt::Formatter<'_>) -> fmt::Result {
        write!(f, "{self:?} ({})", *self as i64)
    }
}

impl std::error::Error for Fault {}

/// A process: its state, a text that is kept with each checkpoint.
#[derive(Clone, Debug, PartialEq, Eq)]
pub struct Process {
    state: String,
}

/// The texts of a call, which is given room for them.
fn texts<const N: usize>(call: impl Fn(&mut [u8]) -> i64) -> Result<[String; N], Fault> {
    let mut out = vec![0; 1024];
    loop {
        let answer = call(&mut out);
        let Ok(size) = usize::try_from(answer) else {
            return Err(FAULTS.into_iter().find(|fault| *fault as i64 == answer).expect("each negative answer is a fault"));
        };
        if size <= out.len() {
            let text = std::str::from_utf8(&out[..size]).expect("texts are ASCII");
            let lines: Vec<String> = text.lines().map(String::from).collect();
            return Ok(lines.try_into().expect("a call gives as many texts as recline.h says"));
        }
        out.resize(size, 0);
    }
}

impl Process {
    /// The root of a computation begins: the process, and the line of its `BEGIN`.
    pub fn root(name: &str) -> Result<(Process, String), Fault> {
        let [state, line] = texts(|out| sys::root(name, out))?;
        Ok((Process { state }, line))
    }

    /// A child begins with the start that its parent handed over.
    pub fn born(start: &str) -> Result<Process, Fault> {
        let [state] = texts(|out| sys::born(start, out))?;
        Ok(Process { state })
    }

    /// The process that was kept. Whether it is one shows at its next call.
    pub fn restored(state: &str) -> Process {
        Process { state: state.into() }
    }

    /// The state, to be kept with a checkpoint.
    pub fn state(&self) -> &str {
        &self.state
    }

    fn becomes<const N: usize>(&mut self, texts: [String; N]) -> [String; N] {
        self.state.clone_from(&texts[0]);
        texts
    }

    /// Works on, which is not reported.
    pub fn work(&mut self) -> Result<(), Fault> {
        let [_] = self.becomes(texts(|out| sys::work(&self.state, out))?);
        Ok(())
    }

    /// Takes a checkpoint. The line is reported once the new state is on disk with it.
    pub fn check(&mut self) -> Result<String, Fault> {
        let [_, line] = self.becomes(texts(|out| sys::check(&self.state, out))?);
        Ok(line)
    }

    /// Tells the present state. The next step has to be one that is reported.
    pub fn present(&mut self) -> Result<String, Fault> {
        let [_, line] = self.becomes(texts(|out| sys::present(&self.state, out))?);
        Ok(line)
    }

    /// Sends a message: the text that goes with it.
    pub fn send(&mut self) -> Result<String, Fault> {
        let [_, message] = self.becomes(texts(|out| sys::send(&self.state, out))?);
        Ok(message)
    }

    /// The same message with the epoch that this process has: to be handed over once more behind a settlement, where its sending is not undone.
    pub fn again(&self, message: &str) -> Result<String, Fault> {
        let [_, again] = texts(|out| sys::again(&self.state, message, out))?;
        Ok(again)
    }

    /// Receives a message, by the text that came with it.
    pub fn receive(&mut self, message: &str) -> Result<(), Fault> {
        let [_] = self.becomes(texts(|out| sys::receive(&self.state, message, out))?);
        Ok(())
    }

    /// Makes a child, which gets half of the id: the line, and the start of the child.
    pub fn fork(&mut self, child: &str) -> Result<(String, String), Fault> {
        let [_, line, start] = self.becomes(texts(|out| sys::fork(&self.state, child, out))?);
        Ok((line, start))
    }

    /// The same, but the child gets a leaf of this depth.
    pub fn fork_small(&mut self, child: &str, depth: u8) -> Result<(String, String), Fault> {
        let [_, line, start] = self.becomes(texts(|out| sys::fork_small(&self.state, child, depth, out))?);
        Ok((line, start))
    }

    /// Ends: the line, and the retirement for the target. The process has no state any more.
    pub fn retire(&mut self, target: &str) -> Result<(String, String), Fault> {
        let [line, retirement] = texts(|out| sys::retire(&self.state, target, out))?;
        self.state.clear();
        Ok((line, retirement))
    }

    /// Absorbs a retirement into this process, of its epoch.
    pub fn absorb(&mut self, retirement: &str) -> Result<String, Fault> {
        let [_, line] = self.becomes(texts(|out| sys::absorb(&self.state, retirement, out))?);
        Ok(line)
    }

    /// The same for one of this epoch or an older one, of a process that is at `"retired"` in the line of each settlement since.
    pub fn absorb_kept(&mut self, retirement: &str) -> Result<String, Fault> {
        let [_, line] = self.becomes(texts(|out| sys::absorb_kept(&self.state, retirement, out))?);
        Ok(line)
    }

    /// Returns to this state, which was kept at its position in the line of the settlement of this epoch.
    pub fn return_to(&mut self, kept: &str, epoch: u32) -> Result<(), Fault> {
        let [_] = self.becomes(texts(|out| sys::return_to(&self.state, kept, epoch, out))?);
        Ok(())
    }

    /// The same where the process crashed and was restored from that state. Whether it had returned to this settlement and gone on by then, or to a
    /// later one, is the caller's to know.
    pub fn returned(&mut self, epoch: u32) -> Result<(), Fault> {
        let [_] = self.becomes(texts(|out| sys::returned(&self.state, epoch, out))?);
        Ok(())
    }
}
