//! The jobs of a script, on the original's workers.

use crate::calls::{ask_outside, ask_own};
use crate::pool::current_pool;
use crate::scopes::{into, into_broadcast, Link};
use crate::script::{Act, Call, Deed, Plain};
use crate::stage::{Here, Stage, Trouble};
use rayon_core::{join_context, FnContext, ThreadPoolBuilder};
use std::panic::{catch_unwind, resume_unwind, AssertUnwindSafe};

/// A worker: the places of its pool and of itself.
pub type Worker = (usize, usize);

/// The worker that this thread is, if it is one.
pub fn current_worker() -> Option<Worker> {
    current_pool().zip(rayon_core::current_thread_index())
}

/// A job that is about to run.
#[derive(Clone, Copy)]
pub struct Play {
    pub stage: &'static Stage,
    job: usize,
    number: u64,
}

/// Where a deed is done: in which run, on which worker, in which scope.
#[derive(Clone, Copy)]
pub struct Place<'a> {
    pub here: Here,
    pub worker: Option<Worker>,
    pub scope: Option<&'a Link<'a>>,
}

impl Play {
    /// The job that is named here. None where its number would be below 0.
    pub fn new(stage: &'static Stage, here: Here, call: Call) -> Option<Play> {
        let number = here.number(call.number)?;
        Some(Play {
            stage,
            job: call.job,
            number,
        })
    }

    /// Runs it on the current worker, or on the thread that is none, in this scope.
    pub fn run(self, migrated: bool, scope: Option<&Link>) -> u64 {
        let worker = current_worker();
        let index = worker.map_or(0, |(_, index)| index as u64);
        let here = Here {
            number: self.number,
            turn: 0,
            migrated,
            index,
        };
        let place = Place {
            here,
            worker,
            scope,
        };
        let deeds = self.stage.script.jobs[self.job].iter();
        deeds
            .filter(|deed| deed.is_done(self.number))
            .map(|deed| repeat(self.stage, place, deed))
            .fold(0, u64::wrapping_add)
    }

    /// The same of a job that this worker detached.
    pub fn run_detached(self, by: Option<Worker>, scope: Option<&Link>) -> u64 {
        self.run(by != current_worker(), scope)
    }
}

/// Does this as often as is said, and answers what is added by it.
fn repeat(stage: &'static Stage, place: Place, deed: &Deed) -> u64 {
    let at = |turn| Place {
        here: Here { turn, ..place.here },
        ..place
    };
    (0..deed.times)
        .map(|turn| match deed.tries {
            true => attempt(|| act(stage, at(turn), deed)),
            false => act(stage, at(turn), deed),
        })
        .fold(0, u64::wrapping_add)
}

/// What is answered, or 0 where there is a fault.
fn attempt(act: impl FnOnce() -> u64) -> u64 {
    match catch_unwind(AssertUnwindSafe(act)) {
        Ok(added) => added,
        Err(payload) if payload.is::<Trouble>() => 0,
        Err(payload) => resume_unwind(payload),
    }
}

/// Does this once.
fn act(stage: &'static Stage, place: Place, deed: &Deed) -> u64 {
    let new = |call| Play::new(stage, place.here, call);
    if place.worker.is_none() && wants_worker(deed) {
        // (the body of a scope in place, on a thread that is no worker)
        stage.has_no_answer();
        return 0;
    }
    match deed.act {
        Act::Plain(deed) => plain(stage, place.here, deed),
        Act::Ask(ask) => match deed.at {
            Some(pool) if current_pool() != Some(pool) => {
                ask_outside(stage, place, pool, ask).map_or(0, |answer| answer.sum())
            }
            _ => ask_own(stage, place, ask),
        },
        Act::JoinWith(first, second) => match new(second) {
            Some(second) => join_with(stage, place.here, first, second),
            None => 0,
        },
        Act::JoinInstall(first, second) => match (new(first), new(second)) {
            (Some(first), Some(second)) => join(|_| first.run(false, None), second),
            _ => 0,
        },
        Act::Serve(gate, times) => serve(stage, gate, place.here.number(times).unwrap_or(0)),
        Act::Into(out, call) => match (new(call), place.scope) {
            (Some(job), Some(scope)) => into(scope, out, job),
            (_, scope) => outside_of_scopes(stage, scope),
        },
        Act::IntoBroadcast(call) => match (new(call), place.scope) {
            (Some(job), Some(scope)) => into_broadcast(scope, job),
            (_, scope) => outside_of_scopes(stage, scope),
        },
        Act::YieldNow => yielded(stage, false),
        Act::YieldLocal => yielded(stage, true),
    }
}

/// Whether a deed is a call that a worker alone makes here.
fn wants_worker(deed: &Deed) -> bool {
    match deed.act {
        Act::Ask(_) => deed.at.is_none(),
        Act::JoinWith(..)
        | Act::JoinInstall(..)
        | Act::Serve(..)
        | Act::YieldNow
        | Act::YieldLocal => true,
        Act::Plain(_) | Act::Into(..) | Act::IntoBroadcast(_) => false,
    }
}

/// What is added by spawning into no scope, or no job.
fn outside_of_scopes(stage: &Stage, scope: Option<&Link>) -> u64 {
    if scope.is_none() {
        stage.has_no_answer();
    }
    0
}

fn plain(stage: &Stage, here: Here, plain: Plain) -> u64 {
    match stage.plain(here, plain) {
        Ok(added) => added,
        Err(trouble) => resume_unwind(Box::new(trouble)),
    }
}

/// Joins a closure that does this, and a job.
fn join_with(stage: &'static Stage, here: Here, first: Plain, second: Play) -> u64 {
    let side = |context: FnContext| {
        let migrated = context.migrated();
        plain(stage, Here { migrated, ..here }, first)
    };
    join(side, second)
}

/// Joins a closure, and a job.
pub fn join(first: impl FnOnce(FnContext) -> u64 + Send, second: Play) -> u64 {
    let (first, second) = join_context(first, |context| second.run(context.migrated(), None));
    first.wrapping_add(second)
}

/// Runs other jobs until a gate was opened so often: so does a worker that waits for another pool, here for one whose
/// only worker waits for the gate.
fn serve(stage: &Stage, gate: usize, times: u64) -> u64 {
    if stage.opened(gate) < times {
        match ThreadPoolBuilder::new().num_threads(1).build() {
            Ok(pool) => pool.install(|| stage.wait(gate, times)),
            Err(error) => {
                eprintln!("{error}");
                std::process::exit(1);
            }
        }
    }
    0
}

/// 1 where a yield has run a job.
#[cfg(feature = "yields")]
fn yielded(_stage: &Stage, is_local: bool) -> u64 {
    let yielded = match is_local {
        true => rayon_core::yield_local(),
        false => rayon_core::yield_now(),
    };
    u64::from(yielded == Some(rayon_core::Yield::Executed))
}

/// The original has no yields before 1.11.
#[cfg(not(feature = "yields"))]
fn yielded(stage: &Stage, _is_local: bool) -> u64 {
    stage.has_no_answer();
    0
}
