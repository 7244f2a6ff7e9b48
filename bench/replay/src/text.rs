//! The text of a replay, and of the world that it leaves.

use crate::reach::act_name;
use crate::step::{Event, How};
use crate::world::{Shape, World, CALLERS};
use std::fmt::Write;

/// A number without sign or leading zeros.
fn number(word: &str) -> Option<u64> {
    let plain = word.bytes().all(|byte| byte.is_ascii_digit());
    let leading = word.len() > 1 && word.starts_with('0');
    if plain && !leading { word.parse().ok() } else { None }
}

fn index(word: &str) -> Option<usize> {
    number(word)?.try_into().ok()
}

fn shape(word: &str) -> Option<Shape> {
    let mut parts = word.split('/');
    let (workers, limit, kind) = (parts.next()?, parts.next()?, parts.next()?);
    if parts.next().is_some() {
        return None;
    }
    let (newest_first, callers_own) = match kind {
        "l" => (true, false),
        "lc" => (true, true),
        "b" => (false, false),
        "bc" => (false, true),
        _ => return None,
    };
    let limit = number(limit)?.try_into().ok()?;
    Some(Shape { workers: index(workers)?, limit, newest_first, callers_own })
}

/// The start world that the first line names.
fn start(line: &str) -> Option<World> {
    let mut words = line.split(' ');
    if words.next()? != "start" {
        return None;
    }
    let bits = number(words.next()?)?;
    let shapes: Option<Vec<Shape>> = words.map(shape).collect();
    World::start(&shapes?, bits)
}

/// The party that a word names, as its place among the workers and callers.
fn party(world: &World, word: &str) -> Option<usize> {
    if let Some(caller) = word.strip_prefix('c') {
        let caller = index(caller)?;
        return (caller < CALLERS).then_some(world.seats.len() + caller);
    }
    let (pool, worker) = word.split_once('.')?;
    let (pool, worker) = (index(pool)?, index(worker)?);
    let place = world.pools.get(pool)?;
    (worker < place.shape.workers).then_some(place.first_seat + worker)
}

/// The event of a line, and how often it is made.
fn event(world: &World, line: &str) -> Option<(Event, u64)> {
    let (name, rest) = line.split_once(' ')?;
    let party = party(world, name)?;
    let (word, argument) = match rest.split_once(' ') {
        Some((word, argument)) => (word, Some(argument)),
        None => (rest, None),
    };
    let act = |how| Event::Act { party, how };
    let event = match (word, argument) {
        ("go", None) => act(How::Go),
        ("go", Some(times)) => {
            let times = number(times)?;
            return (1..=1000).contains(&times).then_some((act(How::Go), times));
        }
        ("from", Some(victim)) => act(How::From(index(victim)?)),
        ("refuse", None) => act(How::Refuse),
        ("miss", None) => act(How::Miss),
        ("ok", None) => Event::End { party, fault: false },
        ("fault", None) => Event::End { party, fault: true },
        ("spawn", Some(pool)) => Event::Spawn { party, pool: index(pool)? },
        ("fifo", Some(pool)) => Event::Fifo { party, pool: index(pool)? },
        ("cast", Some(pool)) => Event::Cast { party, pool: index(pool)? },
        ("broadcast", Some(pool)) => Event::Broadcast { party, pool: index(pool)? },
        ("install", Some(pool)) => Event::Install { party, pool: index(pool)? },
        ("join", None) => Event::Join(party),
        ("scope", Some(pool)) => Event::Scope { party, pool: index(pool)? },
        ("into", Some(words)) => {
            let (scope, what) = words.split_once(' ')?;
            let scope = index(scope)?;
            match what {
                "spawn" => Event::IntoSpawn { party, scope },
                "fifo" => Event::IntoFifo { party, scope },
                "cast" => Event::IntoCast { party, scope },
                _ => return None,
            }
        }
        ("yield", None) => Event::Yield { party, local: false },
        ("yield", Some("local")) => Event::Yield { party, local: true },
        ("end", Some(pool)) => Event::EndPool { party, pool: index(pool)? },
        _ => return None,
    };
    Some((event, 1))
}

/// Makes the events of a line. None where the line is no event or one of them is not enabled.
fn line(world: &mut World, line: &[u8], seen: &mut impl FnMut(&World, Event)) -> Option<()> {
    let (event, times) = event(world, std::str::from_utf8(line).ok()?)?;
    for _ in 0..times {
        seen(world, event);
        world.step(event).then_some(())?;
    }
    Some(())
}

/// The world that the text leads to, or the number of the line that is refused. `seen` is shown each event before its
/// step is tried.
pub fn replay(text: &[u8], mut seen: impl FnMut(&World, Event)) -> Result<World, usize> {
    let text = text.strip_suffix(b"\n").unwrap_or(text);
    let mut lines = text.split(|byte| *byte == b'\n');
    let first = lines.next().and_then(|line| std::str::from_utf8(line).ok());
    let mut world = first.and_then(start).ok_or(1usize)?;
    for (index, bytes) in lines.enumerate() {
        line(&mut world, bytes, &mut seen).ok_or(index + 2)?;
    }
    Ok(world)
}

/// The text of a world.
pub fn print(world: &World) -> String {
    let mut text = String::new();
    for (number, pool) in world.pools.iter().enumerate() {
        let _ = writeln!(
            text,
            "pool {number} sleeping {} inactive {} turn {} injected {} count {}",
            pool.sleeping,
            pool.inactive,
            pool.turn,
            pool.injector.len(),
            pool.count
        );
        for index in 0..pool.shape.workers {
            let seat = &world.seats[pool.first_seat + index];
            let _ = writeln!(
                text,
                "{number}.{index} deque {} cast {} blocked {} place {}",
                seat.deque.len(),
                seat.cast.len(),
                seat.blocked as u8,
                act_name(world, pool.first_seat + index)
            );
        }
    }
    let totals = &world.totals;
    let (queued, running, done) = (totals.queued, totals.running, totals.done);
    let _ = writeln!(text, "jobs {queued} queued {running} running {done} done");
    text
}
