//! Scopes of both orders.

use crate::play::{current_worker, Play, Worker};
use crate::script::{Order, Shape};
use rayon_core::{Scope, ScopeFifo, ThreadPool};
use std::sync::atomic::{AtomicU64, Ordering::SeqCst};

/// A scope of either order.
#[derive(Clone, Copy)]
pub enum Either<'a> {
    Lifo(&'a Scope<'static>),
    Fifo(&'a ScopeFifo<'static>),
}

/// What the jobs of a scope answered: their sum, and how many they were.
#[derive(Default)]
pub struct Book {
    pub sum: AtomicU64,
    pub count: AtomicU64,
}

impl Book {
    fn add(&self, answer: u64) {
        self.sum.fetch_add(answer, SeqCst);
        self.count.fetch_add(1, SeqCst);
    }
}

/// The scope that a run belongs to, its book, the worker that opened it, if one did, and the scope further out.
#[derive(Clone, Copy)]
pub struct Link<'a> {
    scope: Either<'a>,
    book: &'static Book,
    opener: Option<Worker>,
    up: Option<&'a Link<'a>>,
}

impl<'a> Link<'a> {
    /// The same scope as it is handed to one of its jobs.
    fn at_job(scope: Either<'a>, book: &'static Book, opener: Option<Worker>) -> Link<'a> {
        Link {
            scope,
            book,
            opener,
            up: None,
        }
    }

    /// Runs a job that was spawned into the scope, and enters what it answered. It has migrated where another worker
    /// runs it than the one that opened the scope.
    fn run(&self, job: Play) {
        self.book.add(job.run_detached(self.opener, Some(self)));
    }
}

/// What a scope answered: its body, and its jobs.
pub struct Scoped {
    pub value: u64,
    pub sum: u64,
    pub count: u64,
}

/// Opens a scope of this shape, on the pool that is given or on the current worker's, and runs the body in it.
pub fn open_scope(
    pool: Option<&ThreadPool>,
    shape: Shape,
    body: Play,
    up: Option<&Link>,
) -> Scoped {
    let migrated = pool.is_some() && !shape.in_place;
    let book: &'static Book = Box::leak(Box::default());
    let opener = current_worker();
    let value = in_scope(pool, shape, |scope| {
        let link = Link {
            scope,
            book,
            opener,
            up,
        };
        body.run(migrated, Some(&link))
    });
    let (sum, count) = (book.sum.load(SeqCst), book.count.load(SeqCst));
    Scoped { value, sum, count }
}

fn in_scope(
    pool: Option<&ThreadPool>,
    shape: Shape,
    body: impl for<'a> FnOnce(Either<'a>) -> u64 + Send,
) -> u64 {
    let Shape { order, in_place } = shape;
    match order {
        Order::Lifo => {
            let body = |scope: &Scope<'static>| body(Either::Lifo(scope));
            match (pool, in_place) {
                (Some(pool), false) => pool.scope(body),
                (Some(pool), true) => pool.in_place_scope(body),
                (None, false) => rayon_core::scope(body),
                (None, true) => rayon_core::in_place_scope(body),
            }
        }
        Order::Fifo => {
            let body = |scope: &ScopeFifo<'static>| body(Either::Fifo(scope));
            match (pool, in_place) {
                (Some(pool), false) => pool.scope_fifo(body),
                (Some(pool), true) => pool.in_place_scope_fifo(body),
                (None, false) => rayon_core::scope_fifo(body),
                (None, true) => rayon_core::in_place_scope_fifo(body),
            }
        }
    }
}

/// Spawns a job into the scope so many further out.
pub fn into(scope: &Link, out: u64, job: Play) -> u64 {
    let mut link = scope;
    for _ in 0..out {
        match link.up {
            Some(up) => link = up,
            None => {
                job.stage.has_no_answer();
                return 0;
            }
        }
    }
    let Link { book, opener, .. } = *link;
    match link.scope {
        Either::Lifo(scope) => scope.spawn(move |scope| {
            Link::at_job(Either::Lifo(scope), book, opener).run(job);
        }),
        Either::Fifo(scope) => scope.spawn_fifo(move |scope| {
            Link::at_job(Either::Fifo(scope), book, opener).run(job);
        }),
    }
    0
}

/// Broadcasts a job into the scope.
pub fn into_broadcast(scope: &Link, job: Play) -> u64 {
    let Link { book, opener, .. } = *scope;
    match scope.scope {
        Either::Lifo(scope) => scope.spawn_broadcast(move |scope, _| {
            let link = Link::at_job(Either::Lifo(scope), book, opener);
            book.add(job.run(true, Some(&link)));
        }),
        Either::Fifo(scope) => scope.spawn_broadcast(move |scope, _| {
            let link = Link::at_job(Either::Fifo(scope), book, opener);
            book.add(job.run(true, Some(&link)));
        }),
    }
    0
}
