//! Replays the text of standard input on a machine written apart from the proved one, straight from the tables of
//! acts and places. `replay` prints what `rcore replay` has to print, with the same status; `replay reach FILE..` prints
//! the names of the places, acts and refusals that the files reach; `replay begun FILE` the jobs that the file begins, in
//! their order, by the numbers of the calls that made them; `replay random SEED LINES START..` a replay of random enabled
//! events.

mod random;
mod reach;
mod step;
mod text;
mod world;

use std::io::{Read, Write};
use std::process::ExitCode;

fn main() -> ExitCode {
    let words: Vec<String> = std::env::args().skip(1).collect();
    let words: Vec<&str> = words.iter().map(String::as_str).collect();
    let (text, status) = match words.as_slice() {
        [] => replay(),
        ["reach", files @ ..] => reach(files),
        ["begun", file] => begun(file),
        ["random", seed, lines, start @ ..] => random(seed, lines, start),
        _ => (String::from("bad words\n"), 2),
    };
    match std::io::stdout().write_all(text.as_bytes()) {
        Ok(()) => ExitCode::from(status),
        Err(_) => ExitCode::from(1),
    }
}

fn replay() -> (String, u8) {
    let mut text = Vec::new();
    if std::io::stdin().read_to_end(&mut text).is_err() {
        return (String::from("Read\n"), 1);
    }
    match text::replay(&text, |_, _| ()) {
        Ok(world) => (text::print(&world), 0),
        Err(line) => (format!("refused at line {line}\n"), 1),
    }
}

/// What the files reach. A world after a refused line is seen as it was before the line's last step.
fn reach(files: &[&str]) -> (String, u8) {
    let mut reached = reach::Reached::default();
    for file in files {
        let Ok(text) = std::fs::read(file) else {
            return (format!("{file} is not read\n"), 1);
        };
        let end = text::replay(&text, |world, event| {
            reached.places(world);
            if random::is_enabled(world, event) {
                reached.act(world, event);
            }
        });
        if let Ok(world) = end {
            reached.places(&world);
        }
    }
    let names: Vec<String> = reached.names.into_iter().collect();
    (names.join("\n") + "\n", 0)
}

/// The jobs that a file begins, each by how many calls were begun before its own that make jobs of pools or scopes.
fn begun(file: &str) -> (String, u8) {
    let Ok(text) = std::fs::read(file) else {
        return (format!("{file} is not read\n"), 1);
    };
    let mut jobs = String::new();
    let end = text::replay(&text, |world, event| {
        if random::is_enabled(world, event) {
            if let Some(job) = reach::begun(world, event) {
                jobs.push_str(&format!("{job}\n"));
            }
        }
    });
    match end {
        Ok(_) => (jobs, 0),
        Err(line) => (format!("refused at line {line}\n"), 1),
    }
}

fn random(seed: &str, lines: &str, start: &[&str]) -> (String, u8) {
    match (seed.parse(), lines.parse()) {
        (Ok(seed), Ok(lines)) => match random::replay(seed, lines, &start.join(" ")) {
            Some(text) => (text, 0),
            None => (String::from("the start line is refused\n"), 1),
        },
        _ => (String::from("bad words\n"), 2),
    }
}
