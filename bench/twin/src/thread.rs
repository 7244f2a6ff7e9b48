//! What the threads of a script do that are no workers, and what they say.

use crate::calls::{ask_outside, listed, Answer};
use crate::play::Place;
use crate::script::{Ask, Line, Step};
use crate::stage::{Here, Stage, Trouble};
use std::panic::{catch_unwind, resume_unwind, AssertUnwindSafe};

/// What was said, line by line. A line that comes again at once is counted.
#[derive(Default)]
pub struct Log {
    text: String,
    last: Option<(String, u64)>,
}

impl Log {
    /// Says a line.
    pub fn say(&mut self, line: String) {
        match &mut self.last {
            Some((last, times)) if *last == line => *times += 1,
            _ => {
                self.close();
                self.last = Some((line, 1));
            }
        }
    }

    fn close(&mut self) {
        match self.last.take() {
            Some((line, 1)) => self.text += &format!("{line}\n"),
            Some((line, times)) => self.text += &format!("{line} x{times}\n"),
            None => {}
        }
    }

    /// All that was said.
    pub fn into_text(mut self) -> String {
        self.close();
        self.text
    }
}

/// Takes the lines of the thread at this place.
pub fn take_all(stage: &'static Stage, log: &mut Log, thread: usize) {
    for line in &stage.script.threads[thread] {
        (0..line.times).for_each(|turn| take(stage, log, line, turn));
    }
}

/// Takes a line once.
pub fn take(stage: &'static Stage, log: &mut Log, line: &Line, turn: u64) {
    if let Some(answer) = answer(stage, Here::outside(turn), line.step) {
        log.say(format!("{} -> {answer}", line.text));
    }
}

/// What a step is answered. None where nothing is to be said.
fn answer(stage: &'static Stage, here: Here, step: Step) -> Option<String> {
    match step {
        Step::Plain(plain) => match stage.plain(here, plain) {
            Ok(_) => None,
            Err(Trouble(number)) => Some(number.to_string()),
        },
        Step::Ask(pool, ask) => asked(stage, here, pool, ask),
        Step::TakeFault(pool) => {
            let faults = stage.pools[pool].take_faults();
            let first = match faults.first {
                Some(first) => format!("fault {first}"),
                None => String::from("none"),
            };
            Some(format!("{first}, {} in all", faults.count))
        }
        Step::CountFaults(pool) => Some(stage.pools[pool].take_faults().count.to_string()),
        Step::PrintLedger => Some(noted(&stage.take_ledger())),
        Step::PrintSorted => {
            let mut ledger = stage.take_ledger();
            ledger.sort_unstable();
            Some(noted(&ledger))
        }
        Step::PrintGate(gate) => Some(stage.opened(gate).to_string()),
        Step::Lead(_) => None,
    }
}

fn noted(ledger: &[u64]) -> String {
    match ledger {
        [] => String::from("nothing"),
        _ => listed(ledger),
    }
}

/// What a pool answers to a thread's call.
fn asked(stage: &'static Stage, here: Here, pool: usize, ask: Ask) -> Option<String> {
    let place = Place {
        here,
        worker: None,
        scope: None,
    };
    match catch_unwind(AssertUnwindSafe(|| ask_outside(stage, place, pool, ask))) {
        Ok(None | Some(Answer::Done)) => None,
        Ok(Some(answer)) => Some(answer.to_string()),
        Err(payload) => match payload.downcast::<Trouble>() {
            Ok(trouble) => Some(format!("fault {}", trouble.0)),
            Err(payload) => resume_unwind(payload),
        },
    }
}
