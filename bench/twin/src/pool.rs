//! The pools of a script.

use crate::script::PoolPlan;
use crate::stage::Trouble;
use rayon_core::{ThreadPool, ThreadPoolBuildError, ThreadPoolBuilder};
use std::any::Any;
use std::cell::Cell;
use std::sync::atomic::{AtomicUsize, Ordering::SeqCst};
use std::sync::{Arc, Mutex};

/// A worker's stack: as large as deep recursions want it, but where there are many.
const LARGE_STACK: usize = 256 << 20;
const SMALL_STACK: usize = 2 << 20;
const MANY_WORKERS: usize = 64;

thread_local! {
    static POOL: Cell<Option<usize>> = const { Cell::new(None) };
}

/// The place of the pool whose worker this thread is.
pub fn current_pool() -> Option<usize> {
    POOL.with(Cell::get)
}

/// Faults of detached jobs: the first one, and how many there were.
#[derive(Default)]
pub struct Faults {
    pub first: Option<u64>,
    pub count: u64,
}

impl Faults {
    fn add(&mut self, payload: Box<dyn Any + Send>) {
        match payload.downcast::<Trouble>() {
            Ok(trouble) => {
                self.first.get_or_insert(trouble.0);
                self.count += 1;
            }
            // (a panic of the twin itself)
            Err(_) => std::process::abort(),
        }
    }
}

/// A pool until its end, how many of its workers have left, and its faults.
pub struct Held {
    workers: usize,
    pool: Mutex<Option<Arc<ThreadPool>>>,
    left: Arc<AtomicUsize>,
    faults: Arc<Mutex<Faults>>,
}

impl Held {
    /// Builds the pool at this place.
    #[allow(deprecated)] // (breadth_first)
    pub fn build(place: usize, plan: &PoolPlan) -> Result<Held, ThreadPoolBuildError> {
        let left = Arc::new(AtomicUsize::new(0));
        let faults = Arc::new(Mutex::new(Faults::default()));
        let (leaves, keeps) = (left.clone(), faults.clone());
        let stack = if plan.workers > MANY_WORKERS {
            SMALL_STACK
        } else {
            LARGE_STACK
        };
        let mut builder = ThreadPoolBuilder::new()
            .num_threads(plan.workers)
            .stack_size(stack)
            .start_handler(move |_| POOL.with(|pool| pool.set(Some(place))))
            .exit_handler(move |_| {
                leaves.fetch_add(1, SeqCst);
            })
            .panic_handler(move |payload| keeps.lock().unwrap().add(payload));
        if plan.breadth_first {
            builder = builder.breadth_first();
        }
        let pool = builder.build()?;
        let workers = pool.current_num_threads();
        let pool = Mutex::new(Some(Arc::new(pool)));
        Ok(Held {
            workers,
            pool,
            left,
            faults,
        })
    }

    /// The pool, until its end.
    pub fn pool(&self) -> Option<Arc<ThreadPool>> {
        self.pool.lock().unwrap().clone()
    }

    /// The faults since this was asked last.
    pub fn take_faults(&self) -> Faults {
        std::mem::take(&mut *self.faults.lock().unwrap())
    }

    /// Ends the pool, and waits for its workers where it joins them.
    pub fn end(&self, joins: bool) {
        let was = self.pool.lock().unwrap().take();
        if was.is_some() {
            drop(was);
            while joins && self.left.load(SeqCst) < self.workers {
                std::thread::yield_now();
            }
        }
    }
}
