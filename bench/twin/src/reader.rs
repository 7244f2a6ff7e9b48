//! Reading a script.

use crate::deeds::deed;
use crate::names::Directory;
use crate::script::{PoolPlan, Script};
use crate::steps::line;
use crate::words::digits;

/// What is wrong with a line.
pub type Bad = &'static str;

/// The line that was refused, from 1, and what is wrong with it.
pub struct BadLine {
    pub line: usize,
    pub why: Bad,
}

/// Below which heading a line stands. Jobs and threads are counted from 0.
#[derive(Clone, Copy)]
enum Place {
    Nothing,
    Job(usize),
    Thread(usize),
    Main,
}

/// Reads a script: first the headings, so that a line may name what stands further down, and then what stands below
/// them.
pub fn read(text: &str) -> Result<Script, BadLine> {
    let (mut script, mut names) = (Script::default(), Directory::default());
    let mut first = None;
    for (above, text) in text.lines().enumerate() {
        let text = without_comment(text);
        if is_heading(text) {
            if let Err(why) = declare(&mut names, &mut script, text) {
                first.get_or_insert(BadLine {
                    line: above + 1,
                    why,
                });
            }
        }
    }
    let end = first.as_ref().map_or(usize::MAX, |bad| bad.line - 1);
    fill(&names, &mut script, text.lines().take(end))?;
    match first {
        Some(bad) => Err(bad),
        None => Ok(script),
    }
}

/// Takes up the lines below the headings.
fn fill<'a>(
    names: &Directory,
    script: &mut Script,
    lines: impl Iterator<Item = &'a str>,
) -> Result<(), BadLine> {
    let (mut jobs, mut threads) = (0, 0);
    let mut place = Place::Nothing;
    for (above, text) in lines.enumerate() {
        let text = without_comment(text);
        if is_heading(text) {
            place = place_below(text, &mut jobs, &mut threads);
        } else if !text.is_empty() {
            take(names, script, place, text).map_err(|why| BadLine {
                line: above + 1,
                why,
            })?;
        }
    }
    Ok(())
}

fn without_comment(line: &str) -> &str {
    line.split('#').next().unwrap_or("").trim_end()
}

/// Whether a line that has no blanks at its end is a heading: it has none at its beginning either.
fn is_heading(line: &str) -> bool {
    !line.is_empty() && line.trim_start().len() == line.len()
}

/// Where the lines below a heading stand. So many jobs and threads stand above it.
fn place_below(heading: &str, jobs: &mut usize, threads: &mut usize) -> Place {
    match heading.split_whitespace().next() {
        Some("job") => {
            *jobs += 1;
            Place::Job(*jobs - 1)
        }
        Some("thread") => {
            *threads += 1;
            Place::Thread(*threads - 1)
        }
        Some("main") => Place::Main,
        _ => Place::Nothing,
    }
}

/// Takes up what a heading declares.
fn declare(names: &mut Directory, script: &mut Script, text: &str) -> Result<(), Bad> {
    let words: Vec<&str> = text.split_whitespace().collect();
    match words.as_slice() {
        ["pool", words @ ..] => {
            let (name, plan) = pool_plan(words)?;
            names.pools.declare(name)?;
            script.pools.push(plan);
        }
        ["gates"] => return Err("no name, or too many"),
        ["gates", words @ ..] => {
            for name in words {
                declare_gate(names, name)?;
                script.gates += 1;
            }
        }
        ["job", name] => {
            names.jobs.declare(name)?;
            script.jobs.push(vec![]);
        }
        ["thread", name] => {
            names.threads.declare(name)?;
            script.threads.push(vec![]);
        }
        ["job" | "thread", ..] => return Err("no name, or too many"),
        ["main"] if names.has_main => return Err("declared twice"),
        ["main"] => names.has_main = true,
        ["own:", ..] => script.is_own = true,
        _ => return Err("no such heading"),
    }
    Ok(())
}

/// Declares a gate. What `print` names otherwise is no gate's name.
fn declare_gate(names: &mut Directory, name: &str) -> Result<(), Bad> {
    match name {
        "ledger" | "sorted" => Err("no such name is allowed"),
        _ => names.gates.declare(name),
    }
}

/// A pool's name, and how it is built.
fn pool_plan<'a>(words: &[&'a str]) -> Result<(&'a str, PoolPlan), Bad> {
    let (name, workers, depth, breadth_first) = match words {
        [] => return Err("no name, or too many"),
        [name, workers] => (name, workers, None, false),
        [name, workers, "breadth_first"] => (name, workers, None, true),
        [name, workers, "depth", depth] => (name, workers, Some(depth), false),
        [name, workers, "depth", depth, "breadth_first"] => (name, workers, Some(depth), true),
        _ => return Err("no such option"),
    };
    // (the original has no depth limit)
    depth.map_or(Ok(0), |depth| digits(depth))?;
    match usize::try_from(digits(workers)?) {
        Ok(0) => Err("no workers"),
        Ok(workers) => Ok((
            name,
            PoolPlan {
                workers,
                breadth_first,
            },
        )),
        Err(_) => Err("number too large"),
    }
}

/// Takes up a line below a heading.
fn take(names: &Directory, script: &mut Script, place: Place, text: &str) -> Result<(), Bad> {
    match place {
        Place::Nothing => return Err("below no heading"),
        Place::Job(job) => script.jobs[job].push(deed(names, job, text)?),
        Place::Thread(thread) => script.threads[thread].push(line(names, false, text)?),
        Place::Main => script.main.push(line(names, true, text)?),
    }
    Ok(())
}
