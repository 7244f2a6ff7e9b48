//! The names that a script declares.

use crate::reader::Bad;
use std::collections::HashMap;

/// The names of one kind, each with its place: how many were declared before it.
#[derive(Default)]
pub struct Names(HashMap<String, usize>);

impl Names {
    /// Declares a name.
    pub fn declare(&mut self, name: &str) -> Result<(), Bad> {
        if name.contains(['(', ')', ':']) {
            return Err("no such name is allowed");
        }
        if self.0.contains_key(name) {
            return Err("declared twice");
        }
        let place = self.0.len();
        self.0.insert(name.to_string(), place);
        Ok(())
    }

    fn place(&self, name: &str, missing: Bad) -> Result<usize, Bad> {
        self.0.get(name).copied().ok_or(missing)
    }
}

/// The names of all kinds, and whether main was declared.
#[derive(Default)]
pub struct Directory {
    pub pools: Names,
    pub gates: Names,
    pub jobs: Names,
    pub threads: Names,
    pub has_main: bool,
}

impl Directory {
    /// The place of the pool that a word names.
    pub fn pool(&self, word: &str) -> Result<usize, Bad> {
        self.pools.place(word, "no such pool")
    }

    /// The place of the gate that a word names.
    pub fn gate(&self, word: &str) -> Result<usize, Bad> {
        self.gates.place(word, "no such gate")
    }

    /// The place of the job that a word names.
    pub fn job(&self, word: &str) -> Result<usize, Bad> {
        self.jobs.place(word, "no such job")
    }

    /// The place of the thread that a word names.
    pub fn thread(&self, word: &str) -> Result<usize, Bad> {
        self.threads.place(word, "no such thread")
    }
}
