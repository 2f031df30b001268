//! Takes the steps that standard input says, and writes the line of each that reports; of one that is refused "FAULT n". tests/suites/bindings says
//! what the steps are.

use recline::{Fault, Process};
use std::collections::HashMap;
use std::io::{stdin, BufRead};

/// Of one family: the processes, and the texts that were handed out or kept, by their names.
#[derive(Default)]
struct Family {
    processes: HashMap<String, Process>,
    texts: HashMap<String, String>,
}

impl Family {
    fn process(&mut self, name: &str) -> &mut Process {
        self.processes.get_mut(name).expect("the process was born")
    }

    /// The line of the step, where it has one.
    fn step(&mut self, words: &[&str]) -> Result<Option<String>, Fault> {
        let (kind, name) = (words[0], words[1]);
        let object = words.get(2).copied().unwrap_or_default();
        match kind {
            "root" => {
                *self = Family::default();
                let (process, line) = Process::root(name)?;
                self.processes.insert(name.into(), process);
                return Ok(Some(line));
            }
            "work" => self.process(name).work()?,
            "check" => return self.process(name).check().map(Some),
            "present" => return self.process(name).present().map(Some),
            "send" => {
                let message = self.process(name).send()?;
                self.texts.insert(object.into(), message);
            }
            "receive" => {
                let message = self.texts[object].clone();
                self.process(name).receive(&message)?;
            }
            "fork" => {
                let (line, start) = match words.get(3) {
                    Some(depth) => self.process(name).fork_small(object, depth.parse().expect("a depth is a number"))?,
                    None => self.process(name).fork(object)?,
                };
                self.processes.insert(object.into(), Process::born(&start)?);
                return Ok(Some(line));
            }
            "retire" => {
                let (line, retirement) = self.process(name).retire(object)?;
                self.texts.insert(name.into(), retirement);
                return Ok(Some(line));
            }
            "absorb" | "absorb_kept" => {
                let retirement = self.texts[object].clone();
                let process = self.process(name);
                let line = if kind == "absorb" { process.absorb(&retirement)? } else { process.absorb_kept(&retirement)? };
                return Ok(Some(line));
            }
            "keep" => {
                let state = self.process(name).state().into();
                self.texts.insert(object.into(), state);
            }
            "again" => {
                let message = self.texts[object].clone();
                let again = self.process(name).again(&message)?;
                self.texts.insert(object.into(), again);
            }
            "return_to" => {
                let kept = self.texts[object].clone();
                self.process(name).return_to(&kept, words[3].parse().expect("an epoch is a number"))?;
            }
            "return" => {
                let mut process = Process::restored(&self.texts[object]);
                process.returned(words[3].parse().expect("an epoch is a number"))?;
                self.processes.insert(name.into(), process);
            }
            _ => panic!("no step: {kind}"),
        }
        Ok(None)
    }
}

fn main() {
    let mut family = Family::default();
    for asked in stdin().lock().lines() {
        let asked = asked.expect("standard input is text");
        match family.step(&asked.split(' ').collect::<Vec<_>>()) {
            Ok(Some(line)) => println!("{line}"),
            Ok(None) => {}
            Err(fault) => println!("FAULT {}", fault as i64),
        }
    }
}
