//! Calls of a pool, by its own workers and from outside.

use crate::play::{join, Place, Play};
use crate::pool::current_pool;
use crate::scopes::{open_scope, Scoped};
use crate::script::{Ask, Verb};
use crate::stage::Stage;
use rayon_core::ThreadPool;
use std::fmt;

/// What a call of a pool from outside it answers.
pub enum Answer {
    Done,
    One(u64),
    Both(u64, u64),
    Each(Vec<u64>),
    Scoped(Scoped),
}

impl Answer {
    /// What a run adds that made the call.
    pub fn sum(&self) -> u64 {
        match self {
            Answer::Done => 0,
            Answer::One(answer) => *answer,
            Answer::Both(first, second) => first.wrapping_add(*second),
            Answer::Each(each) => each.iter().copied().fold(0, u64::wrapping_add),
            Answer::Scoped(scoped) => scoped.value.wrapping_add(scoped.sum),
        }
    }
}

impl fmt::Display for Answer {
    fn fmt(&self, f: &mut fmt::Formatter) -> fmt::Result {
        match self {
            Answer::Done => Ok(()),
            Answer::One(answer) => write!(f, "{answer}"),
            Answer::Both(first, second) => write!(f, "{first} and {second}"),
            Answer::Each(each) => f.write_str(&listed(each)),
            Answer::Scoped(Scoped { value, sum, count }) => {
                write!(f, "{value}, and {sum} of {count}")
            }
        }
    }
}

/// Numbers with blanks between them.
pub fn listed(numbers: &[u64]) -> String {
    let words: Vec<String> = numbers.iter().map(u64::to_string).collect();
    words.join(" ")
}

/// A call of a pool by a thread, or by a job of another pool. None where no job is called, or the original has no
/// answer, as after the pool's end.
pub fn ask_outside(stage: &'static Stage, place: Place, pool: usize, ask: Ask) -> Option<Answer> {
    let new = |call| Play::new(stage, place.here, call);
    let Some(held) = stage.pools[pool].pool() else {
        stage.has_no_answer();
        return None;
    };
    match ask {
        Ask::One(verb, call) => Some(one_outside(&held, place, verb, new(call)?)),
        Ask::Join(first, second) => {
            let (first, second) = (new(first)?, new(second)?);
            let (first, second) = held.join(|| first.run(true, None), || second.run(true, None));
            Some(Answer::Both(first, second))
        }
        Ask::JoinContext(first, second) => {
            let (first, second) = (new(first)?, new(second)?);
            // (from outside of any pool the original's free function tells both sides that they migrated)
            let (first, second) = held.install(|| {
                rayon_core::join_context(|_| first.run(true, None), |_| second.run(true, None))
            });
            Some(Answer::Both(first, second))
        }
    }
}

fn one_outside(held: &ThreadPool, place: Place, verb: Verb, job: Play) -> Answer {
    match verb {
        Verb::Install => return Answer::One(held.install(|| job.run(true, None))),
        Verb::Broadcast => return Answer::Each(held.broadcast(|_| job.run(true, None))),
        Verb::Scope(shape) => {
            return Answer::Scoped(open_scope(Some(held), shape, job, place.scope))
        }
        Verb::Spawn => held.spawn(move || {
            job.run(true, None);
        }),
        Verb::SpawnFifo => held.spawn_fifo(move || {
            job.run(true, None);
        }),
        Verb::SpawnBroadcast => held.spawn_broadcast(move |_| {
            job.run(true, None);
        }),
    }
    Answer::Done
}

/// A call by a worker of its own pool.
pub fn ask_own(stage: &'static Stage, place: Place, ask: Ask) -> u64 {
    let new = |call| Play::new(stage, place.here, call);
    let Some(pool) = current_pool() else {
        stage.has_no_answer();
        return 0;
    };
    match ask {
        Ask::One(verb, call) => match new(call) {
            Some(job) => one_own(stage, place, pool, verb, job),
            None => 0,
        },
        Ask::Join(first, second) | Ask::JoinContext(first, second) => {
            match (new(first), new(second)) {
                (Some(first), Some(second)) => {
                    join(|context| first.run(context.migrated(), None), second)
                }
                _ => 0,
            }
        }
    }
}

fn one_own(stage: &'static Stage, place: Place, pool: usize, verb: Verb, job: Play) -> u64 {
    let by = place.worker;
    match verb {
        Verb::Install => {
            return match stage.pools[pool].pool() {
                Some(held) => held.install(|| job.run(false, None)),
                // (the pool's value is gone: what `install` does on one of its workers)
                None => job.run(false, None),
            };
        }
        Verb::Broadcast => {
            let answers = rayon_core::broadcast(|_| job.run(true, None));
            return Answer::Each(answers).sum();
        }
        Verb::Scope(shape) => {
            return Answer::Scoped(open_scope(None, shape, job, place.scope)).sum()
        }
        Verb::Spawn => rayon_core::spawn(move || {
            job.run_detached(by, None);
        }),
        Verb::SpawnFifo => rayon_core::spawn_fifo(move || {
            job.run_detached(by, None);
        }),
        Verb::SpawnBroadcast => rayon_core::spawn_broadcast(move |_| {
            job.run(true, None);
        }),
    }
    0
}
