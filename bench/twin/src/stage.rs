//! What the jobs and threads of a script share.

use crate::pool::Held;
use crate::script::{Number, Plain, Script, Value};
use std::sync::atomic::{AtomicBool, AtomicU64, Ordering::SeqCst};
use std::sync::Mutex;

/// The fault of a job, as the payload of its panic.
pub struct Trouble(pub u64);

/// The script with its gates, its ledger and its pools. It is leaked, so that jobs may borrow it for ever.
pub struct Stage {
    pub script: Script,
    pub pools: Vec<Held>,
    gates: Vec<AtomicU64>,
    ledger: Mutex<Vec<u64>>,
    is_unanswered: AtomicBool,
}

/// What a run or a thread knows of itself.
#[derive(Clone, Copy)]
pub struct Here {
    /// The number that the run was given.
    pub number: u64,
    /// The turn, of a line that is taken several times.
    pub turn: u64,
    pub migrated: bool,
    /// The worker's index.
    pub index: u64,
}

impl Here {
    /// What a thread that is no worker knows in this turn.
    pub fn outside(turn: u64) -> Here {
        Here {
            number: 0,
            turn,
            migrated: false,
            index: 0,
        }
    }

    /// The number that this is here. None where it would be below 0.
    pub fn number(self, number: Number) -> Option<u64> {
        number.at(self.number, self.turn)
    }

    fn value(self, value: Value) -> Option<u64> {
        match value {
            Value::Number(number) => self.number(number),
            Value::Migrated => Some(u64::from(self.migrated)),
            Value::Index => Some(self.index),
            Value::Bit => 1_u64.checked_shl(u32::try_from(self.index).ok()?),
        }
    }
}

impl Stage {
    /// For a script that nobody has played yet.
    pub fn new(script: Script, pools: Vec<Held>) -> Stage {
        Stage {
            gates: (0..script.gates).map(|_| AtomicU64::new(0)).collect(),
            ledger: Mutex::default(),
            is_unanswered: AtomicBool::new(false),
            script,
            pools,
        }
    }

    /// Does what needs no call, and answers what is added by it.
    pub fn plain(&self, here: Here, plain: Plain) -> Result<u64, Trouble> {
        match plain {
            Plain::Note(value) => {
                let value = here.value(value);
                self.ledger.lock().unwrap().extend(value);
            }
            Plain::Add(value) => return Ok(here.value(value).unwrap_or(0)),
            Plain::Fault(value) => {
                if let Some(value) = here.value(value) {
                    return Err(Trouble(value));
                }
            }
            Plain::Open(gate, times) => {
                self.open(gate, here.number(times).unwrap_or(0));
            }
            Plain::Wait(gate, times) => self.wait(gate, here.number(times).unwrap_or(0)),
            Plain::Meet(gate, crowd) => {
                let crowd = here.number(crowd).unwrap_or(0).max(1);
                self.wait(gate, self.open(gate, 1).next_multiple_of(crowd));
            }
            Plain::Pause => pause(),
        }
        Ok(0)
    }

    /// How often a gate was opened.
    pub fn opened(&self, gate: usize) -> u64 {
        self.gates[gate].load(SeqCst)
    }

    /// Opens a gate so often, and answers how often that makes.
    fn open(&self, gate: usize, times: u64) -> u64 {
        self.gates[gate]
            .fetch_add(times, SeqCst)
            .wrapping_add(times)
    }

    /// Blocks until a gate was opened so often.
    pub fn wait(&self, gate: usize, times: u64) {
        while self.opened(gate) < times {
            std::thread::yield_now();
        }
    }

    /// What was noted since this was asked last.
    pub fn take_ledger(&self) -> Vec<u64> {
        std::mem::take(&mut *self.ledger.lock().unwrap())
    }

    /// Notes that the original has no answer to something that the script does.
    pub fn has_no_answer(&self) {
        self.is_unanswered.store(true, SeqCst);
    }

    /// Whether something was done to which the original has no answer.
    pub fn is_unanswered(&self) -> bool {
        self.is_unanswered.load(SeqCst)
    }
}

/// Lets other threads run for a while, so that they may fall asleep.
fn pause() {
    for _ in 0..100 {
        std::thread::yield_now();
    }
}
