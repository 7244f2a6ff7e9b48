//! Replays of random enabled events.

use crate::step::{Event, How};
use crate::text;
use crate::world::World;
use std::fmt::Write;

/// Whether the event is enabled in the world.
pub fn is_enabled(world: &World, event: Event) -> bool {
    world.clone().step(event)
}

/// Numbers that look random, from a seed.
struct Numbers(u64);

impl Numbers {
    fn below(&mut self, end: usize) -> usize {
        self.0 ^= self.0 << 13;
        self.0 ^= self.0 >> 7;
        self.0 ^= self.0 << 17;
        (self.0 >> 11) as usize % end
    }
}

/// A replay of so many lines after this first one. None where the first line is refused.
pub fn replay(seed: u64, lines: usize, first: &str) -> Option<String> {
    let mut world = text::replay(first.as_bytes(), |_, _| ()).ok()?;
    let mut numbers = Numbers(seed.wrapping_mul(0x9E37_79B9_7F4A_7C15) | 1);
    let mut out = format!("{first}\n");
    let mut written = 0;
    let mut tries = 0;
    while written < lines && tries < 100 {
        tries += 1;
        let (event, times) = draw(&world, &mut numbers);
        let mut made = 0;
        while made < times && world.step(event) {
            made += 1;
        }
        if made > 0 {
            let _ = writeln!(out, "{}", words(&world, event, made));
            written += 1;
            tries = 0;
        }
    }
    Some(out)
}

/// An event, and how often it may be made in a row.
fn draw(world: &World, numbers: &mut Numbers) -> (Event, usize) {
    let parties = world.seats.len() + 4;
    let party = numbers.below(parties);
    let pool = numbers.below(world.pools.len());
    let times = if numbers.below(3) == 0 { 1 } else { 1 + numbers.below(30) };
    let act = |how| Event::Act { party, how };
    let free = world.is_free(party);
    let held = world.held(party);
    match numbers.below(40) {
        0..=8 if free => (Event::End { party, fault: false }, 1),
        9..=10 if free => (Event::End { party, fault: true }, 1),
        11..=12 if free => (Event::Spawn { party, pool }, 1),
        13..=14 if free => (Event::Fifo { party, pool }, 1),
        15 if free => (Event::Cast { party, pool }, 1),
        16 if free => (Event::Broadcast { party, pool }, 1),
        17..=18 if free => (Event::Install { party, pool }, 1),
        19..=20 if free => (Event::Join(party), 1),
        21..=22 if free => (Event::Scope { party, pool }, 1),
        23..=28 if free && !held.is_empty() => {
            let scope = held[numbers.below(held.len())];
            (into(party, scope, numbers), 1)
        }
        29 if free => (into(party, numbers.below(1 + world.scopes.len()), numbers), 1),
        30..=31 if free => (Event::Yield { party, local: false }, 1),
        32..=33 if free => (Event::Yield { party, local: true }, 1),
        34 if free && numbers.below(50) == 0 => (Event::EndPool { party, pool }, 1),
        0..=2 => (act(How::From(numbers.below(4))), 1),
        3 => (act(How::Refuse), 1),
        4..=5 => (act(How::Miss), 1),
        _ => (act(How::Go), times),
    }
}

/// A call into this scope.
fn into(party: usize, scope: usize, numbers: &mut Numbers) -> Event {
    match numbers.below(5) {
        0 | 1 => Event::IntoSpawn { party, scope },
        2 | 3 => Event::IntoFifo { party, scope },
        _ => Event::IntoCast { party, scope },
    }
}

/// The line of an event that was made so often.
fn words(world: &World, event: Event, times: usize) -> String {
    let name = |party: usize| match world.parties[party].worker {
        Some((pool, index)) => format!("{pool}.{index}"),
        None => format!("c{}", party - world.seats.len()),
    };
    match event {
        Event::Act { party, how: How::Go } if times > 1 => format!("{} go {times}", name(party)),
        Event::Act { party, how: How::Go } => format!("{} go", name(party)),
        Event::Act { party, how: How::From(victim) } => format!("{} from {victim}", name(party)),
        Event::Act { party, how: How::Refuse } => format!("{} refuse", name(party)),
        Event::Act { party, how: How::Miss } => format!("{} miss", name(party)),
        Event::End { party, fault: false } => format!("{} ok", name(party)),
        Event::End { party, fault: true } => format!("{} fault", name(party)),
        Event::Spawn { party, pool } => format!("{} spawn {pool}", name(party)),
        Event::Fifo { party, pool } => format!("{} fifo {pool}", name(party)),
        Event::Cast { party, pool } => format!("{} cast {pool}", name(party)),
        Event::Broadcast { party, pool } => format!("{} broadcast {pool}", name(party)),
        Event::Install { party, pool } => format!("{} install {pool}", name(party)),
        Event::Join(party) => format!("{} join", name(party)),
        Event::Scope { party, pool } => format!("{} scope {pool}", name(party)),
        Event::IntoSpawn { party, scope } => format!("{} into {scope} spawn", name(party)),
        Event::IntoFifo { party, scope } => format!("{} into {scope} fifo", name(party)),
        Event::IntoCast { party, scope } => format!("{} into {scope} cast", name(party)),
        Event::Yield { party, local: false } => format!("{} yield", name(party)),
        Event::Yield { party, local: true } => format!("{} yield local", name(party)),
        Event::EndPool { party, pool } => format!("{} end {pool}", name(party)),
    }
}
