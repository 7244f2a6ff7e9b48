//! The lines of a job.

use crate::names::Directory;
use crate::reader::Bad;
use crate::script::{Act, Ask, Call, Deed, Number, Order, Plain, Shape, Verb};
use crate::words::{call_below, digits, number, value};

/// A call of a pool whose jobs are not read yet.
#[derive(Clone, Copy)]
pub enum Asking {
    One(Verb),
    Join,
    JoinContext,
}

/// For which runs a line is done, how often, whether the run goes on where it faults, and which pool it calls.
#[derive(Clone, Copy)]
struct Prefixes {
    from: u64,
    below: Option<u64>,
    times: u64,
    tries: bool,
    at: Option<usize>,
}

/// A line of the job at this place.
pub fn deed(names: &Directory, job: usize, text: &str) -> Result<Deed, Bad> {
    let mut prefixes = Prefixes {
        from: 0,
        below: None,
        times: 1,
        tries: false,
        at: None,
    };
    let mut text = text;
    if let Some((before, after)) = text.rsplit_once(':') {
        prefixes = prefixes_of(names, prefixes, before)?;
        text = after;
    }
    let words: Vec<&str> = text.split_whitespace().collect();
    let act = act(names, job, &words)?;
    let Prefixes {
        from,
        below,
        times,
        tries,
        at,
    } = prefixes;
    if at.is_some() && !matches!(act, Act::Ask(_)) {
        return Err("no such deed");
    }
    Ok(Deed {
        from,
        below,
        times,
        tries,
        at,
        act,
    })
}

/// The prefixes that a text has, in their order and each once, over what holds without.
fn prefixes_of(names: &Directory, without: Prefixes, text: &str) -> Result<Prefixes, Bad> {
    let (mut prefixes, mut last) = (without, 0);
    for text in text.split(':') {
        let rank = take_prefix(names, &mut prefixes, text)?;
        if rank <= last {
            return Err("prefixes out of order");
        }
        last = rank;
    }
    Ok(prefixes)
}

/// Takes up a prefix, and answers at which place it has to stand among others.
fn take_prefix(names: &Directory, prefixes: &mut Prefixes, text: &str) -> Result<u8, Bad> {
    match *text.split_whitespace().collect::<Vec<_>>() {
        ["from", number] => {
            prefixes.from = digits(number)?;
            Ok(1)
        }
        ["below", number] => {
            prefixes.below = Some(digits(number)?);
            Ok(2)
        }
        [number, "times"] => {
            prefixes.times = digits(number)?;
            Ok(3)
        }
        ["try"] => {
            prefixes.tries = true;
            Ok(4)
        }
        ["at", pool] => {
            prefixes.at = Some(names.pool(pool)?);
            Ok(5)
        }
        _ => Err("no such deed"),
    }
}

/// What a line of the job at this place does.
fn act(names: &Directory, job: usize, words: &[&str]) -> Result<Act, Bad> {
    let call = |word: &str| call_below(names, job, word);
    match words {
        ["serve", gate, times] => Ok(Act::Serve(names.gate(gate)?, number(times)?)),
        ["join", second, "with", "install", first] => {
            let first = call(first)?;
            Ok(Act::JoinInstall(first, call(second)?))
        }
        ["join", second, "with", first @ ..] => {
            let first = plain(names, first)?.ok_or("no such deed")?;
            Ok(Act::JoinWith(first, call(second)?))
        }
        ["into", job] => Ok(Act::Into(0, call(job)?)),
        ["outer", job] => Ok(Act::Into(1, call(job)?)),
        ["outer", out, job] => Ok(Act::Into(digits(out)?, call(job)?)),
        ["into_broadcast", job] => Ok(Act::IntoBroadcast(call(job)?)),
        ["yield_now"] => Ok(Act::YieldNow),
        ["yield_local"] => Ok(Act::YieldLocal),
        _ => match ask(words, call) {
            Some(ask) => Ok(Act::Ask(ask?)),
            None => Ok(Act::Plain(plain(names, words)?.ok_or("no such deed")?)),
        },
    }
}

/// A call of a pool by one of its workers. None where the words are another's.
fn ask(words: &[&str], call: impl Fn(&str) -> Result<Call, Bad>) -> Option<Result<Ask, Bad>> {
    let [verb, jobs @ ..] = words else {
        return None;
    };
    match (asking(verb, jobs)?, jobs) {
        (Asking::One(verb), [job]) => Some(call(job).map(|call| Ask::One(verb, call))),
        (Asking::Join, [first, second]) => {
            let first = call(first);
            Some(first.and_then(|first| Ok(Ask::Join(first, call(second)?))))
        }
        _ => None,
    }
}

/// The call of a pool that a word is, with so many jobs. None where it is none.
pub fn asking(verb: &str, jobs: &[&str]) -> Option<Asking> {
    let scope = |order, in_place| Verb::Scope(Shape { order, in_place });
    let verb = match (verb, jobs.len()) {
        ("join", 2) => return Some(Asking::Join),
        ("join_context", 2) => return Some(Asking::JoinContext),
        ("install", 1) => Verb::Install,
        ("spawn", 1) => Verb::Spawn,
        ("spawn_fifo", 1) => Verb::SpawnFifo,
        ("broadcast", 1) => Verb::Broadcast,
        ("spawn_broadcast", 1) => Verb::SpawnBroadcast,
        ("scope", 1) => scope(Order::Lifo, false),
        ("scope_fifo", 1) => scope(Order::Fifo, false),
        ("in_place_scope", 1) => scope(Order::Lifo, true),
        ("in_place_scope_fifo", 1) => scope(Order::Fifo, true),
        _ => return None,
    };
    Some(Asking::One(verb))
}

/// What is done without a call of a pool. None where the words are another's.
pub fn plain(names: &Directory, words: &[&str]) -> Result<Option<Plain>, Bad> {
    let once = Number {
        plus: 1,
        ..Number::default()
    };
    let plain = match words {
        ["note", word] => Plain::Note(value(word)?),
        ["add", word] => Plain::Add(value(word)?),
        ["fault", word] => Plain::Fault(value(word)?),
        ["open", gate] => Plain::Open(names.gate(gate)?, once),
        ["open", gate, times] => Plain::Open(names.gate(gate)?, number(times)?),
        ["wait", gate, times] => Plain::Wait(names.gate(gate)?, number(times)?),
        ["meet", gate, crowd] => Plain::Meet(names.gate(gate)?, number(crowd)?),
        ["pause"] => Plain::Pause,
        _ => return Ok(None),
    };
    Ok(Some(plain))
}
