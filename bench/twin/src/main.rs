//! Plays the script of standard input on the original rayon-core, and prints what `pool_player` has to print, with the
//! same status: 2 where the script is bad, and 1 where memory or a thread is refused. Where the original has no answer
//! to the script it prints `no answer`, with status 3. docs/SCRIPTS.md is the page of the language.

mod calls;
mod deeds;
mod house;
mod names;
mod play;
mod pool;
mod reader;
mod scopes;
mod script;
mod stage;
mod steps;
mod thread;
mod words;

use reader::BadLine;
use std::io::{Read, Write};
use std::process::ExitCode;

fn main() -> ExitCode {
    let mut text = String::new();
    if let Err(error) = std::io::stdin().read_to_string(&mut text) {
        eprintln!("{error}");
        return ExitCode::from(1);
    }
    let script = match reader::read(&text) {
        Ok(script) => script,
        Err(BadLine { line, why }) => {
            eprintln!("bad line {line}: {why}");
            return ExitCode::from(2);
        }
    };
    let (said, status) = match house::play(script) {
        Ok(Some(said)) => (said, 0),
        Ok(None) => (String::from("no answer\n"), 3),
        Err(error) => {
            eprintln!("{error}");
            return ExitCode::from(1);
        }
    };
    match std::io::stdout().write_all(said.as_bytes()) {
        Ok(()) => ExitCode::from(status),
        Err(_) => ExitCode::from(1),
    }
}
