//! The commands of `join_bench` on the original's pools: for each timed run the nanoseconds that it took and what it
//! answered.

use rayon_core::{broadcast, spawn_broadcast, ThreadPool, ThreadPoolBuilder};
use rayon_core::{join, scope, scope_fifo, spawn, spawn_fifo};
use std::error::Error;
use std::hint::black_box;
use std::sync::atomic::{AtomicU64, Ordering};
use std::sync::Arc;
use std::thread;
use std::time::{Duration, Instant};

/// The largest index that `leaves` finds by plain recursion.
const LARGEST_LEAF: u8 = 18;

/// How many times F(n) is found.
const RUNS: u32 = 3;

/// How many calls are made from outside, or broadcasts by one job, one after the other.
const CALLS: u32 = 20_000;

/// How many jobs are spawned by one, or into one scope.
const SPAWNS: u64 = 100_000;

/// How many seconds a pool is idle.
const SECONDS: u64 = 2;

/// How often sleeping workers are called.
const WAKES: u32 = 500;

/// How many milliseconds the workers have to fall asleep.
const REST: u64 = 4;

/// By which call jobs are spawned.
#[derive(Clone, Copy)]
enum Manner {
    Plain,
    InOrder,
    Everywhere,
}

fn main() -> Result<(), Box<dyn Error>> {
    let words: Vec<String> = std::env::args().skip(1).collect();
    let words: Vec<&str> = words.iter().map(String::as_str).collect();
    match words[..] {
        [] => print_values(&pool_of(1)?),
        ["join", workers, n] => time_runs(&pool_of(workers.parse()?)?, n.parse()?, by_join),
        ["leaves", workers, n] => time_runs(&pool_of(workers.parse()?)?, n.parse()?, by_leaves),
        ["sequential", _, n] => time_sequential(n.parse()?),
        ["install", workers, n] => {
            let pool = pool_of(workers.parse()?)?;
            time_calls(n.parse()?, |n| installed(&pool, n, by_join))
        }
        ["pool_join", workers, n] => {
            let pool = pool_of(workers.parse()?)?;
            time_calls(n.parse()?, |n| joined_twice(&pool, n))
        }
        ["spawn", workers, _] => time_spawns(&pool_of(workers.parse()?)?, Manner::Plain),
        ["spawn_fifo", workers, _] => time_spawns(&pool_of(workers.parse()?)?, Manner::InOrder),
        ["spawn_broadcast", workers, _] => time_spawns(&pool_of(workers.parse()?)?, Manner::Everywhere),
        ["broadcast", workers, n] => {
            let pool = pool_of(workers.parse()?)?;
            time_calls(n.parse()?, |n| broadcasted(&pool, n))
        }
        ["worker_broadcast", workers, n] => time_broadcasts(&pool_of(workers.parse()?)?, n.parse()?),
        ["scope", workers, _] => time_scopes(&pool_of(workers.parse()?)?, run_scope),
        ["scope_fifo", workers, _] => time_scopes(&pool_of(workers.parse()?)?, run_scope_fifo),
        ["scope_outputs", workers, _] => time_scopes(&pool_of(workers.parse()?)?, run_scope_outputs),
        ["in_place_scope", workers, _] => time_in_place_scopes(&pool_of(workers.parse()?)?),
        ["wake", workers, n] => wake(&pool_of(workers.parse()?)?, n.parse()?),
        ["idle", workers, n] => idle(&pool_of(workers.parse()?)?, n.parse()?),
        _ => Err(
            "join|leaves|sequential|install|pool_join|spawn[_fifo|_broadcast]|[worker_]broadcast|\
            scope[_fifo|_outputs]|in_place_scope|wake|idle WORKERS N, or nothing"
                .into(),
        ),
    }
}

fn pool_of(workers: usize) -> Result<ThreadPool, Box<dyn Error>> {
    Ok(ThreadPoolBuilder::new().num_threads(workers).build()?)
}

fn print_values(pool: &ThreadPool) -> Result<(), Box<dyn Error>> {
    let sides = pool.join(|| by_join(19), || by_join(18));
    let (Some(first), Some(second)) = sides else {
        return Err("TooLarge".into());
    };
    println!("F(20) installed: {}", installed(pool, 20, by_join)?);
    println!("F(20) joined: {}", first + second);
    println!("F(20) sequential: {}", plain(20)?);
    Ok(())
}

fn time_runs(pool: &ThreadPool, n: u8, find: fn(u8) -> Option<u64>) -> Result<(), Box<dyn Error>> {
    for _ in 0..RUNS {
        let start = Instant::now();
        let value = installed(pool, n, find)?;
        let nanoseconds = start.elapsed().as_nanos();
        println!("{nanoseconds} {value}");
    }
    Ok(())
}

fn time_calls(n: u8, call: impl Fn(u8) -> Result<u64, &'static str>) -> Result<(), Box<dyn Error>> {
    let start = Instant::now();
    let mut sum = 0;
    for _ in 0..CALLS {
        sum += call(n)?;
    }
    let nanoseconds = start.elapsed().as_nanos();
    println!("{nanoseconds} {sum}");
    Ok(())
}

fn time_spawns(pool: &ThreadPool, manner: Manner) -> Result<(), Box<dyn Error>> {
    for _ in 0..RUNS {
        let counter = Arc::new(AtomicU64::new(0));
        let start = Instant::now();
        let spawned = pool.install(|| spawn_all(&counter, manner));
        while counter.load(Ordering::SeqCst) < spawned {
            thread::yield_now();
        }
        let nanoseconds = start.elapsed().as_nanos();
        println!("{nanoseconds} {spawned}");
    }
    Ok(())
}

/// Answers how many will have counted.
fn spawn_all(counter: &Arc<AtomicU64>, manner: Manner) -> u64 {
    for _ in 0..SPAWNS {
        let counter = Arc::clone(counter);
        let count = move || {
            counter.fetch_add(1, Ordering::SeqCst);
        };
        match manner {
            Manner::Plain => spawn(count),
            Manner::InOrder => spawn_fifo(count),
            Manner::Everywhere => spawn_broadcast(move |_| count()),
        }
    }
    match manner {
        Manner::Plain | Manner::InOrder => SPAWNS,
        Manner::Everywhere => SPAWNS * rayon_core::current_num_threads() as u64,
    }
}

/// One install for each run: what is timed are the broadcasts inside.
fn time_broadcasts(pool: &ThreadPool, n: u8) -> Result<(), Box<dyn Error>> {
    for _ in 0..RUNS {
        let start = Instant::now();
        let answer = pool.install(|| broadcast_often(n)).ok_or("TooLarge")?;
        let nanoseconds = start.elapsed().as_nanos();
        println!("{nanoseconds} {answer}");
    }
    Ok(())
}

fn broadcast_often(n: u8) -> Option<u64> {
    let mut sum: u64 = 0;
    for _ in 0..CALLS {
        sum = sum.checked_add(sum_of(broadcast(|_| sequential(n)))?)?;
    }
    Some(sum)
}

fn time_scopes(pool: &ThreadPool, run: fn() -> u64) -> Result<(), Box<dyn Error>> {
    for _ in 0..RUNS {
        let start = Instant::now();
        let answer = pool.install(run);
        let nanoseconds = start.elapsed().as_nanos();
        println!("{nanoseconds} {answer}");
    }
    Ok(())
}

fn run_scope() -> u64 {
    scope(|scope| {
        for _ in 0..SPAWNS {
            scope.spawn(|_| ());
        }
    });
    SPAWNS
}

fn run_scope_fifo() -> u64 {
    scope_fifo(|scope| {
        for _ in 0..SPAWNS {
            scope.spawn_fifo(|_| ());
        }
    });
    SPAWNS
}

/// Each job writes its number into a place of its own.
fn run_scope_outputs() -> u64 {
    let mut outputs: Vec<u64> = vec![0; SPAWNS as usize];
    scope(|scope| {
        for (output, number) in outputs.iter_mut().zip(0..) {
            scope.spawn(move |_| *output = number);
        }
    });
    outputs.iter().sum()
}

fn time_in_place_scopes(pool: &ThreadPool) -> Result<(), Box<dyn Error>> {
    for _ in 0..RUNS {
        let start = Instant::now();
        pool.in_place_scope(|scope| {
            for _ in 0..SPAWNS {
                scope.spawn(|_| ());
            }
        });
        let nanoseconds = start.elapsed().as_nanos();
        println!("{nanoseconds} {SPAWNS}");
    }
    Ok(())
}

fn time_sequential(n: u8) -> Result<(), Box<dyn Error>> {
    for _ in 0..RUNS {
        let start = Instant::now();
        let value = plain(black_box(n))?;
        let nanoseconds = start.elapsed().as_nanos();
        println!("{nanoseconds} {value}");
    }
    Ok(())
}

fn wake(pool: &ThreadPool, n: u8) -> Result<(), Box<dyn Error>> {
    let start = Instant::now();
    let mut sum = 0;
    for _ in 0..WAKES {
        thread::sleep(Duration::from_millis(REST));
        sum += broadcasted(pool, n)?;
    }
    let nanoseconds = start.elapsed().as_nanos();
    println!("{nanoseconds} {sum}");
    Ok(())
}

fn idle(pool: &ThreadPool, n: u8) -> Result<(), Box<dyn Error>> {
    let start = Instant::now();
    let value = installed(pool, n, by_join)?;
    thread::sleep(Duration::from_secs(SECONDS));
    let nanoseconds = start.elapsed().as_nanos();
    println!("{nanoseconds} {value}");
    Ok(())
}

fn installed(pool: &ThreadPool, n: u8, find: fn(u8) -> Option<u64>) -> Result<u64, &'static str> {
    pool.install(|| find(n)).ok_or("TooLarge")
}

fn joined_twice(pool: &ThreadPool, n: u8) -> Result<u64, &'static str> {
    match pool.join(|| by_join(n), || by_join(n)) {
        (Some(first), Some(second)) => Ok(first + second),
        _ => Err("TooLarge"),
    }
}

fn broadcasted(pool: &ThreadPool, n: u8) -> Result<u64, &'static str> {
    sum_of(pool.broadcast(|_| sequential(n))).ok_or("TooLarge")
}

fn sum_of(answers: Vec<Option<u64>>) -> Option<u64> {
    let mut total: u64 = 0;
    for answer in answers {
        total = total.checked_add(answer?)?;
    }
    Some(total)
}

fn plain(n: u8) -> Result<u64, &'static str> {
    sequential(n).ok_or("TooLarge")
}

fn by_join(n: u8) -> Option<u64> {
    if n < 2 {
        return Some(u64::from(n));
    }
    let (x, y) = join(|| by_join(n - 1), || by_join(n - 2));
    x?.checked_add(y?)
}

fn by_leaves(n: u8) -> Option<u64> {
    if n <= LARGEST_LEAF {
        return sequential(n);
    }
    let (x, y) = join(|| by_leaves(n - 1), || by_leaves(n - 2));
    x?.checked_add(y?)
}

fn sequential(n: u8) -> Option<u64> {
    if n < 2 {
        return Some(u64::from(n));
    }
    let x = sequential(n - 1)?;
    let y = sequential(n - 2)?;
    x.checked_add(y)
}
