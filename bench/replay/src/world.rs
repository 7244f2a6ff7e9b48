//! What a world holds: pools, seats of workers, parties with their stacks, and open calls.

use std::collections::{BTreeMap, VecDeque};

/// The outside callers.
pub const CALLERS: usize = 16;

/// The shape of one pool.
#[derive(Clone, Copy)]
pub struct Shape {
    pub workers: usize,
    pub limit: u8,
    pub newest_first: bool,
    pub callers_own: bool,
}

/// A queued job: detached at a pool, the one that an open call waits for, one of a scope, or a piece of a broadcast that
/// waits; or a token for a FIFO list of a worker: that of a scope, or that of detached jobs. Detached jobs and those of
/// scopes have the number of the call that made them.
#[derive(Clone, Copy, PartialEq, Eq)]
pub enum Task {
    Detached { pool: u8, job: u32 },
    Answer(u32),
    Scoped { scope: u32, job: u32 },
    Piece(u32),
    Token { worker: u8, scope: Option<u32> },
}

/// What the end of a run sets going.
#[derive(Clone, Copy)]
pub enum Run {
    Detached { pool: u8, job: u32 },
    Answer(u32),
    Scoped { scope: u32, job: u32 },
    Piece(u32),
    /// The call below goes on.
    Direct,
}

#[derive(Clone, Copy, PartialEq, Eq)]
pub enum Letter {
    Unset,
    Sleepy,
    Sleeping,
    Set,
}

/// The places of the wait, in the order of its table.
#[derive(Clone, Copy, PartialEq, Eq)]
pub enum At {
    ProbeWorking,
    PopWorking,
    CastWorking,
    BecomeInactive,
    ProbeIdle,
    PopIdle,
    CastIdle,
    Pick,
    Steal,
    PopInjected,
    Announce,
    Sleepy,
    LockOwn,
    Asleep,
    Load,
    TryAdd,
    LookCast,
    LookInjector,
    Block,
    Relock,
    SubSleeping,
    Wakeup,
    Unlock,
    SubInactive,
    /// Others are being woken; then the task is begun, or the wait is left.
    Leaving,
}

#[derive(Clone, Copy)]
pub struct Wait {
    /// The call whose latch is waited for, or none: the worker's terminate latch.
    pub call: Option<u32>,
    pub at: At,
    pub rounds: u8,
    pub kept: u64,
    pub word: (u32, u32, u64),
    pub victim: u8,
    pub left: u8,
    pub task: Option<Task>,
}

impl Wait {
    pub fn new(call: Option<u32>) -> Wait {
        Wait {
            call,
            at: At::ProbeWorking,
            rounds: 0,
            kept: 0,
            word: (0, 0, 0),
            victim: 0,
            left: 0,
            task: None,
        }
    }
}

/// Taking a lock, waking its worker, leaving the lock.
#[derive(Clone, Copy, PartialEq, Eq)]
pub enum Phase {
    Lock,
    Wake,
    Unlock,
}

#[derive(Clone, Copy, PartialEq, Eq)]
pub enum CallStep {
    Raise,
    Grow,
    Look,
    Push,
    /// A job is added to the own FIFO list, a token of it is pushed; or the job is taken back.
    Add,
    LookForToken,
    PushToken,
    TakeBack,
    /// A piece of a broadcast is put into each worker's broadcast list.
    Deal,
    /// A number of a scope's book is opened, or one for each piece of a broadcast; or taken back.
    OpenSlot,
    CloseSlot,
    /// The body of a scope runs above; its ending is stored; its share of the scope's count is given back.
    Body,
    StoreBody,
    LowerBody,
    News,
    /// Others are being woken.
    Woken,
    /// A wait or a run stands above.
    Above,
    WaitForLock,
    Take,
    Probe,
    Pop,
    Cast,
    Second,
}

#[derive(Clone, Copy, PartialEq, Eq, Debug)]
pub enum CallKind {
    Spawn,
    /// A spawn in order, by a worker of the pool.
    Fifo,
    /// A detached broadcast.
    Cast,
    Here,
    Send,
    Join,
    Scope,
    /// A spawn into a scope, and one in order by a worker of the scope's pool.
    Enter,
    EnterFifo,
    /// A broadcast into a scope.
    EnterCast,
    /// A broadcast that waits.
    Broadcast,
}

impl CallKind {
    /// Whether it is a call into a scope.
    pub fn enters(self) -> bool {
        matches!(self, CallKind::Enter | CallKind::EnterFifo | CallKind::EnterCast)
    }

    /// Whether it makes jobs of a pool or a scope, for which no call waits by itself.
    pub fn makes(self) -> bool {
        self.enters() || matches!(self, CallKind::Spawn | CallKind::Fifo | CallKind::Cast)
    }

    /// Whether it makes a piece for each worker of a pool.
    pub fn casts(self) -> bool {
        matches!(self, CallKind::Cast | CallKind::EnterCast)
    }
}

#[derive(Clone, Copy)]
pub struct Call {
    pub kind: CallKind,
    pub step: CallStep,
    pub pool: u8,
    pub was_empty: bool,
    pub number: u32,
    /// The scope that is opened or spawned into.
    pub scope: u32,
    /// How many calls were begun before it that make jobs of pools or scopes.
    pub job: u32,
}

#[derive(Clone, Copy, PartialEq, Eq)]
pub enum Look {
    Pop,
    Cast,
    Pick,
    Steal,
    Injected,
}

#[derive(Clone, Copy)]
pub enum Frame {
    Wait(Wait),
    Stopped,
    Begin(Run),
    /// A token for a FIFO list of this worker of the own pool is redeemed.
    Redeem { worker: u8, scope: Option<u32> },
    Run(Run),
    Call(Call),
    Yield { look: Look, local: bool, victim: u8, left: u8 },
    Wake { pool: u8, worker: u8, owed: u8, phase: Phase },
    Lower(u8),
    /// Gives back the shares of a refused broadcast's pieces of the pool's count.
    LowerAll(u8),
    Store { call: u32, fault: bool },
    /// A job of this scope is over: its ending is stored, and then its share of the scope's count is given back.
    StoreSlot(u32),
    LowerScope(u32),
    /// Gives back the shares of a refused broadcast's pieces of the scope's count.
    LowerScopeAll(u32),
    /// A piece of this call is over: its ending is stored, and then its share of the call's count is given back.
    StorePiece { call: u32, fault: bool },
    LowerCast(u32),
    SetLock(u32),
    /// Sets the latch of a call of this worker.
    SetCall { seat: u16, call: u32 },
    /// Sets the terminate latch of the worker and then of those after it.
    SetTerminate { pool: u8, worker: u8 },
    /// Wakes a worker whose latch was set while it slept; `all` goes on to the next terminate latch.
    Settle { pool: u8, worker: u8, all: bool, phase: Phase },
}

#[derive(Clone)]
pub struct Pool {
    pub shape: Shape,
    pub first_seat: usize,
    pub injector: VecDeque<Task>,
    pub sleeping: u32,
    pub inactive: u32,
    pub turn: u64,
    pub count: u64,
    pub held: bool,
}

/// The jobs of a FIFO list, oldest first, and the party that holds it. They are all of one scope, or all detached.
#[derive(Clone, Default)]
pub struct FifoList {
    pub jobs: VecDeque<u32>,
    pub feeder: Option<usize>,
}

#[derive(Clone)]
pub struct Seat {
    pub deque: VecDeque<Task>,
    pub cast: VecDeque<Task>,
    /// The FIFO lists: one for each scope, and one for detached jobs.
    pub lists: BTreeMap<Option<u32>, FifoList>,
    pub blocked: bool,
    pub locked: bool,
    pub terminate: Letter,
}

#[derive(Clone)]
pub struct Party {
    /// Pool and index of a worker.
    pub worker: Option<(u8, u8)>,
    pub stack: Vec<Frame>,
}

/// The latch and the cell of a call that waits, and its count, if it is a broadcast.
#[derive(Clone, Copy)]
pub struct OpenCall {
    pub owner: u16,
    pub latch: Letter,
    pub cell: Option<bool>,
    pub count: u64,
}

/// A scope: its call, its pool, its count, and who holds its book.
#[derive(Clone, Copy)]
pub struct Scope {
    pub call: u32,
    pub pool: u8,
    pub count: u64,
    pub writer: Option<usize>,
}

#[derive(Clone, Default)]
pub struct Totals {
    pub queued: u64,
    pub running: u64,
    pub done: u64,
}

#[derive(Clone)]
pub struct World {
    pub mask: u64,
    pub pools: Vec<Pool>,
    pub seats: Vec<Seat>,
    /// The workers, pool by pool, and then the callers.
    pub parties: Vec<Party>,
    pub calls: Vec<OpenCall>,
    pub free_calls: Vec<u32>,
    pub scopes: Vec<Scope>,
    /// How many calls were begun that make jobs of pools or scopes.
    pub makers: u32,
    pub totals: Totals,
}

impl World {
    /// The start world, or none for a shape that no world has.
    pub fn start(shapes: &[Shape], bits: u64) -> Option<World> {
        let fits = |s: &Shape| (1..=64).contains(&s.workers) && s.limit <= 32;
        if !(1..=8).contains(&shapes.len()) || !(1..=32).contains(&bits) || !shapes.iter().all(fits) {
            return None;
        }
        let mut world = World {
            mask: (1 << bits) - 1,
            pools: Vec::new(),
            seats: Vec::new(),
            parties: Vec::new(),
            calls: Vec::new(),
            free_calls: Vec::new(),
            scopes: Vec::new(),
            makers: 0,
            totals: Totals::default(),
        };
        for (number, shape) in shapes.iter().enumerate() {
            world.add_pool(number as u8, *shape);
        }
        for _ in 0..CALLERS {
            world.parties.push(Party { worker: None, stack: Vec::new() });
        }
        Some(world)
    }

    fn add_pool(&mut self, number: u8, shape: Shape) {
        self.pools.push(Pool {
            shape,
            first_seat: self.seats.len(),
            injector: VecDeque::new(),
            sleeping: 0,
            inactive: 0,
            turn: 0,
            count: 1,
            held: true,
        });
        for index in 0..shape.workers {
            let own = shape.callers_own && index == 0;
            let stack = if own { Vec::new() } else { vec![Frame::Wait(Wait::new(None))] };
            self.parties.push(Party { worker: Some((number, index as u8)), stack });
            self.seats.push(Seat {
                deque: VecDeque::new(),
                cast: VecDeque::new(),
                lists: BTreeMap::new(),
                blocked: false,
                locked: false,
                terminate: Letter::Unset,
            });
        }
    }

    /// A FIFO list of the worker of this seat.
    pub fn list(&mut self, seat: usize, scope: Option<u32>) -> &mut FifoList {
        self.seats[seat].lists.entry(scope).or_default()
    }

    pub fn seat_of(&self, pool: u8, worker: u8) -> usize {
        self.pools[pool as usize].first_seat + worker as usize
    }

    pub fn is_free(&self, party: usize) -> bool {
        match self.parties[party].stack.last() {
            None => true,
            Some(frame) => matches!(frame, Frame::Run(_)),
        }
    }

    /// The scope whose body this frame is, or a job of it.
    fn scope_of(frame: &Frame) -> Option<u32> {
        match frame {
            Frame::Call(call) if call.step == CallStep::Body => Some(call.scope),
            Frame::Run(Run::Scoped { scope, .. }) => Some(*scope),
            _ => None,
        }
    }

    /// Whether the party's stack holds the body of this scope, or a job of it.
    pub fn holds(&self, party: usize, scope: u32) -> bool {
        self.parties[party].stack.iter().any(|frame| Self::scope_of(frame) == Some(scope))
    }

    /// The numbers of the scopes of which the party's stack holds the body, or a job, the least first.
    pub fn held(&self, party: usize) -> Vec<usize> {
        let frames = self.parties[party].stack.iter();
        let numbers = frames.filter_map(Self::scope_of).map(|scope| scope as usize);
        let mut held: Vec<usize> = numbers.filter(|scope| *scope < self.scopes.len()).collect();
        held.sort_unstable();
        held.dedup();
        held
    }

    /// The pool of a worker.
    pub fn own_pool(&self, party: usize) -> Option<u8> {
        self.parties[party].worker.map(|(pool, _)| pool)
    }

    pub fn set_top(&mut self, party: usize, frame: Frame) {
        if let Some(top) = self.parties[party].stack.last_mut() {
            *top = frame;
        }
    }

    pub fn push(&mut self, party: usize, frame: Frame) {
        self.parties[party].stack.push(frame);
    }

    pub fn open_call(&mut self, owner: usize) -> u32 {
        let record = OpenCall { owner: owner as u16, latch: Letter::Unset, cell: None, count: 0 };
        match self.free_calls.pop() {
            Some(number) => {
                self.calls[number as usize] = record;
                number
            }
            None => {
                self.calls.push(record);
                (self.calls.len() - 1) as u32
            }
        }
    }
}
