//! What a script says, once it is read.

/// A number that a script gives: so many times the run's own number, so many times that of the turn, and so much more
/// or less.
#[derive(Clone, Copy, Default)]
pub struct Number {
    pub own: u64,
    pub turn: u64,
    pub plus: u64,
    pub minus: u64,
}

impl Number {
    /// What it is in this run and turn. None where it would be below 0.
    pub fn at(self, own: u64, turn: u64) -> Option<u64> {
        let own = self.own.saturating_mul(own);
        let turn = self.turn.saturating_mul(turn);
        let sum = own.saturating_add(turn).saturating_add(self.plus);
        sum.checked_sub(self.minus)
    }

    /// Whether it is less than the run's own number, whatever that is.
    pub fn is_less(self) -> bool {
        self.own == 1 && self.turn == 0 && self.plus == 0 && self.minus > 0
    }
}

/// What is noted, added or faulted with.
#[derive(Clone, Copy)]
pub enum Value {
    Number(Number),
    Migrated,
    Index,
    Bit,
}

/// A job that a line names, and the number that it is given.
#[derive(Clone, Copy)]
pub struct Call {
    pub job: usize,
    pub number: Number,
}

/// What is done without a call of a pool.
#[derive(Clone, Copy)]
pub enum Plain {
    Note(Value),
    Add(Value),
    Fault(Value),
    Open(usize, Number),
    Wait(usize, Number),
    Meet(usize, Number),
    Pause,
}

/// In which order a scope's jobs run on one worker.
#[derive(Clone, Copy)]
pub enum Order {
    Lifo,
    Fifo,
}

/// A scope: its order, and whether its body stays on the thread that opens it.
#[derive(Clone, Copy)]
pub struct Shape {
    pub order: Order,
    pub in_place: bool,
}

/// A call of one job.
#[derive(Clone, Copy)]
pub enum Verb {
    Install,
    Spawn,
    SpawnFifo,
    Broadcast,
    SpawnBroadcast,
    Scope(Shape),
}

/// What is asked of a pool: by a job of its own or of another pool, or by a thread.
#[derive(Clone, Copy)]
pub enum Ask {
    One(Verb, Call),
    Join(Call, Call),
    JoinContext(Call, Call),
}

/// What a job does.
#[derive(Clone, Copy)]
pub enum Act {
    Plain(Plain),
    Ask(Ask),
    /// A join whose first side is a closure that does this.
    JoinWith(Plain, Call),
    /// A join whose first side is a closure that installs the first job.
    JoinInstall(Call, Call),
    Serve(usize, Number),
    /// Spawns into the scope so many further out.
    Into(u64, Call),
    IntoBroadcast(Call),
    YieldNow,
    YieldLocal,
}

/// A line of a job.
#[derive(Clone, Copy)]
pub struct Deed {
    pub from: u64,
    /// The smallest number of a run that does not, if there is one.
    pub below: Option<u64>,
    pub times: u64,
    pub tries: bool,
    /// The pool that is called, where that is not said to be the run's own.
    pub at: Option<usize>,
    pub act: Act,
}

impl Deed {
    /// Whether a run of this number does it.
    pub fn is_done(&self, number: u64) -> bool {
        self.from <= number && self.below.is_none_or(|below| number < below)
    }
}

/// What a thread does that is no worker.
#[derive(Clone, Copy)]
pub enum Step {
    Plain(Plain),
    Ask(usize, Ask),
    TakeFault(usize),
    CountFaults(usize),
    PrintLedger,
    PrintSorted,
    PrintGate(usize),
    Lead(Lead),
}

/// What the main thread alone does.
#[derive(Clone, Copy)]
pub enum Lead {
    End(usize),
    EndAndJoin(usize),
    Start(usize),
    Finish(usize),
    Do(usize),
}

/// A line of a thread: how often it is taken, what it does, and how it is written.
pub struct Line {
    pub times: u64,
    pub step: Step,
    pub text: String,
}

/// How a pool is built.
pub struct PoolPlan {
    pub workers: usize,
    pub breadth_first: bool,
}

/// A script. Its lines name pools, gates, jobs and threads by their places.
#[derive(Default)]
pub struct Script {
    /// Whether it says that the original has no answer to it.
    pub is_own: bool,
    pub pools: Vec<PoolPlan>,
    /// How many gates there are.
    pub gates: usize,
    pub jobs: Vec<Vec<Deed>>,
    pub threads: Vec<Vec<Line>>,
    pub main: Vec<Line>,
}
