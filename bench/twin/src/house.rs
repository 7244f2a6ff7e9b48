//! The main thread of a script: it builds the pools, leads the threads, and ends the pools.

use crate::pool::Held;
use crate::script::{Lead, Line, Script, Step};
use crate::stage::Stage;
use crate::thread::{take, take_all, Log};
use std::error::Error;
use std::thread::{Builder, JoinHandle};

/// The threads that run, by their places, and what was said so far.
struct House {
    stage: &'static Stage,
    threads: Vec<Option<JoinHandle<String>>>,
    log: Log,
}

/// What a script says. None where the original has no answer to it.
pub fn play(script: Script) -> Result<Option<String>, Box<dyn Error>> {
    if script.is_own {
        return Ok(None);
    }
    let pools = script.pools.iter().enumerate();
    let pools = pools.map(|(place, plan)| Held::build(place, plan));
    let pools = pools.collect::<Result<Vec<_>, _>>()?;
    let stage: &'static Stage = Box::leak(Box::new(Stage::new(script, pools)));
    let threads = stage.script.threads.iter().map(|_| None).collect();
    let mut house = House {
        stage,
        threads,
        log: Log::default(),
    };
    for line in &stage.script.main {
        house.take(line)?;
    }
    house.close();
    let text = house.log.into_text();
    Ok(if stage.is_unanswered() {
        None
    } else {
        Some(text)
    })
}

impl House {
    /// Takes a line as often as is said.
    fn take(&mut self, line: &Line) -> Result<(), Box<dyn Error>> {
        for turn in 0..line.times {
            match line.step {
                Step::Lead(lead) => self.lead(lead)?,
                _ => take(self.stage, &mut self.log, line, turn),
            }
        }
        Ok(())
    }

    /// Does what the main thread alone does.
    fn lead(&mut self, lead: Lead) -> Result<(), Box<dyn Error>> {
        match lead {
            Lead::End(pool) => self.stage.pools[pool].end(false),
            Lead::EndAndJoin(pool) => self.stage.pools[pool].end(true),
            Lead::Start(place) => self.start(place)?,
            Lead::Finish(place) => self.finish(place),
            Lead::Do(place) => take_all(self.stage, &mut self.log, place),
        }
        Ok(())
    }

    fn start(&mut self, place: usize) -> Result<(), Box<dyn Error>> {
        let stage = self.stage;
        let thread = Builder::new().spawn(move || {
            let mut log = Log::default();
            take_all(stage, &mut log, place);
            log.into_text()
        })?;
        self.threads[place] = Some(thread);
        Ok(())
    }

    /// Waits for the end of a thread, and says what it said.
    fn finish(&mut self, place: usize) {
        if let Some(thread) = self.threads[place].take() {
            let said = thread.join().unwrap_or_else(|_| std::process::abort());
            said.lines().for_each(|line| self.log.say(line.to_string()));
        }
    }

    /// Finishes the threads, and ends and joins the pools.
    fn close(&mut self) {
        (0..self.threads.len()).for_each(|place| self.finish(place));
        self.stage.pools.iter().for_each(|pool| pool.end(true));
    }
}
