//! The lines of a thread, and of main.

use crate::deeds::{asking, plain, Asking};
use crate::names::Directory;
use crate::reader::Bad;
use crate::script::{Ask, Call, Lead, Line, Number, Plain, Step, Value};
use crate::words::{call, digits};

/// A line of a thread. Only main leads.
pub fn line(names: &Directory, is_main: bool, text: &str) -> Result<Line, Bad> {
    let (times, text) = match text.rsplit_once(':') {
        Some((prefix, text)) => (times(prefix)?, text),
        None => (1, text),
    };
    let words: Vec<&str> = text.split_whitespace().collect();
    let step = step(names, &words)?;
    if matches!(step, Step::Lead(_)) && !is_main {
        return Err("only main does this");
    }
    let text = text.trim().to_string();
    Ok(Line { times, step, text })
}

/// The number of times that a prefix says.
fn times(prefix: &str) -> Result<u64, Bad> {
    match *prefix.split_whitespace().collect::<Vec<_>>() {
        [number, "times"] => digits(number),
        _ => Err("no such step"),
    }
}

/// What a line of a thread does.
fn step(names: &Directory, words: &[&str]) -> Result<Step, Bad> {
    match words {
        ["take_fault", pool] => Ok(Step::TakeFault(names.pool(pool)?)),
        ["count_faults", pool] => Ok(Step::CountFaults(names.pool(pool)?)),
        ["print", "ledger"] => Ok(Step::PrintLedger),
        ["print", "sorted"] => Ok(Step::PrintSorted),
        ["print", gate] => Ok(Step::PrintGate(names.gate(gate)?)),
        ["end", pool] => Ok(Step::Lead(Lead::End(names.pool(pool)?))),
        ["end_and_join", pool] => Ok(Step::Lead(Lead::EndAndJoin(names.pool(pool)?))),
        ["start", thread] => Ok(Step::Lead(Lead::Start(names.thread(thread)?))),
        ["finish", thread] => Ok(Step::Lead(Lead::Finish(names.thread(thread)?))),
        ["do", thread] => Ok(Step::Lead(Lead::Do(names.thread(thread)?))),
        [verb, pool, jobs @ ..] if asking(verb, jobs).is_some() => ask(names, verb, pool, jobs),
        _ => match plain(names, words)? {
            Some(plain) => Ok(Step::Plain(plain_outside(plain)?)),
            None => Err("no such step"),
        },
    }
}

/// A call of a pool by a thread.
fn ask(names: &Directory, verb: &str, pool: &str, jobs: &[&str]) -> Result<Step, Bad> {
    let read = |word: &str| call_outside(names, word);
    let ask = match (asking(verb, jobs), jobs) {
        (Some(Asking::One(verb)), [job]) => {
            let pool = names.pool(pool)?;
            return Ok(Step::Ask(pool, Ask::One(verb, read(job)?)));
        }
        (Some(Asking::Join), [first, second]) => Ask::Join(read(first)?, read(second)?),
        (Some(Asking::JoinContext), [first, second]) => {
            Ask::JoinContext(read(first)?, read(second)?)
        }
        _ => return Err("no such step"),
    };
    Ok(Step::Ask(names.pool(pool)?, ask))
}

/// A job that a thread names.
fn call_outside(names: &Directory, word: &str) -> Result<Call, Bad> {
    let call = call(names, word)?;
    outside(call.number)?;
    Ok(call)
}

/// What a thread does without a call: it adds nothing, and has no fault.
fn plain_outside(plain: Plain) -> Result<Plain, Bad> {
    match plain {
        Plain::Add(_) | Plain::Fault(_) => return Err("no such step"),
        Plain::Note(Value::Number(number))
        | Plain::Open(_, number)
        | Plain::Wait(_, number)
        | Plain::Meet(_, number) => outside(number)?,
        Plain::Note(_) => return Err("only a job has this"),
        Plain::Pause => {}
    }
    Ok(plain)
}

/// A number that a thread gives: it has none of its own.
fn outside(number: Number) -> Result<(), Bad> {
    match number.own {
        0 => Ok(()),
        _ => Err("only a job has this"),
    }
}
