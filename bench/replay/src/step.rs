//! Acts and events. Each function answers whether the event was enabled, and changes nothing where it was not.

use crate::world::{
    At, Call, CallKind, CallStep, Frame, Letter, Look, Phase, Run, Scope, Task, Wait, World,
};

/// How a party makes its next act.
#[derive(Clone, Copy, PartialEq, Eq)]
pub enum How {
    Go,
    From(usize),
    Refuse,
    Miss,
}

#[derive(Clone, Copy)]
pub enum Event {
    Act { party: usize, how: How },
    End { party: usize, fault: bool },
    Spawn { party: usize, pool: usize },
    Fifo { party: usize, pool: usize },
    Cast { party: usize, pool: usize },
    Install { party: usize, pool: usize },
    Join(usize),
    Scope { party: usize, pool: usize },
    IntoSpawn { party: usize, scope: usize },
    IntoFifo { party: usize, scope: usize },
    IntoCast { party: usize, scope: usize },
    Broadcast { party: usize, pool: usize },
    Yield { party: usize, local: bool },
    EndPool { party: usize, pool: usize },
}

/// What a take of a task found.
type Found = Option<Task>;

impl World {
    pub fn step(&mut self, event: Event) -> bool {
        match event {
            Event::Act { party, how } => self.act(party, how),
            Event::End { party, fault } => self.end_run(party, fault),
            Event::Spawn { party, pool } => self.call(party, pool, CallKind::Spawn),
            Event::Fifo { party, pool } if self.own_pool(party) == Some(pool as u8) => {
                self.call(party, pool, CallKind::Fifo)
            }
            Event::Fifo { party, pool } => self.call(party, pool, CallKind::Spawn),
            Event::Cast { party, pool } => self.call(party, pool, CallKind::Cast),
            Event::Broadcast { party, pool } => self.call(party, pool, CallKind::Broadcast),
            Event::Install { party, pool } if self.own_pool(party) == Some(pool as u8) => {
                self.call(party, pool, CallKind::Here)
            }
            Event::Install { party, pool } => self.call(party, pool, CallKind::Send),
            Event::Join(party) => match self.own_pool(party) {
                Some(pool) => self.call(party, pool as usize, CallKind::Join),
                None => false,
            },
            Event::Scope { party, pool } => {
                let number = self.scopes.len() as u32;
                let enabled = self.scoped_call(party, pool, CallKind::Scope, number);
                if enabled {
                    let pool = pool as u8;
                    self.scopes.push(Scope { call: u32::MAX, pool, count: 0, writer: None });
                }
                enabled
            }
            Event::IntoSpawn { party, scope } => self.enter(party, scope, CallKind::Enter),
            Event::IntoFifo { party, scope } => {
                let pool = self.scopes.get(scope).map(|found| found.pool);
                let own = pool.is_some() && self.own_pool(party) == pool;
                self.enter(party, scope, if own { CallKind::EnterFifo } else { CallKind::Enter })
            }
            Event::IntoCast { party, scope } => self.enter(party, scope, CallKind::EnterCast),
            Event::Yield { party, local } => {
                let enabled = self.own_pool(party).is_some() && self.is_free(party);
                if enabled {
                    self.push(party, Frame::Yield { look: Look::Pop, local, victim: 0, left: 0 });
                }
                enabled
            }
            Event::EndPool { party, pool } => {
                let enabled = self.is_free(party) && self.pools.get(pool).is_some_and(|p| p.held);
                if enabled {
                    self.pools[pool].held = false;
                    self.push(party, Frame::Lower(pool as u8));
                }
                enabled
            }
        }
    }

    fn call(&mut self, party: usize, pool: usize, kind: CallKind) -> bool {
        self.scoped_call(party, pool, kind, 0)
    }

    /// A call into a scope by a party that holds it.
    fn enter(&mut self, party: usize, scope: usize, kind: CallKind) -> bool {
        match self.scopes.get(scope).copied() {
            Some(found) if self.holds(party, scope as u32) => {
                self.scoped_call(party, found.pool as usize, kind, scope as u32)
            }
            _ => false,
        }
    }

    fn scoped_call(&mut self, party: usize, pool: usize, kind: CallKind, scope: u32) -> bool {
        if pool >= self.pools.len() || !self.is_free(party) {
            return false;
        }
        let step = CallStep::Raise;
        let job = self.makers;
        self.makers += u32::from(kind.makes());
        let call = Call { kind, step, pool: pool as u8, was_empty: false, number: 0, scope, job };
        self.push(party, Frame::Call(call));
        true
    }

    /// The run on top ends.
    fn end_run(&mut self, party: usize, fault: bool) -> bool {
        let Some(Frame::Run(run)) = self.parties[party].stack.last().copied() else {
            return false;
        };
        self.totals.running -= 1;
        self.totals.done += 1;
        match run {
            Run::Detached { pool, .. } => self.set_top(party, Frame::Lower(pool)),
            Run::Answer(call) => self.set_top(party, Frame::Store { call, fault }),
            Run::Scoped { scope, .. } => self.set_top(party, Frame::StoreSlot(scope)),
            Run::Piece(call) => self.set_top(party, Frame::StorePiece { call, fault }),
            Run::Direct => {
                self.parties[party].stack.pop();
                self.call_after_run(party, fault);
            }
        }
        true
    }

    /// The call on top goes on after the run that it made itself.
    fn call_after_run(&mut self, party: usize, fault: bool) {
        let Some(Frame::Call(call)) = self.parties[party].stack.last().copied() else {
            return;
        };
        match (call.kind, call.step) {
            (CallKind::Join, CallStep::Above) if fault => self.wait(party, call),
            (CallKind::Join, CallStep::Above) => self.go_on(party, call, CallStep::Probe),
            (CallKind::Join, _) => self.close(party, call),
            (CallKind::Scope, _) => self.go_on(party, call, CallStep::StoreBody),
            _ => self.set_top(party, Frame::Lower(call.pool)),
        }
    }

    fn go_on(&mut self, party: usize, call: Call, step: CallStep) {
        self.set_top(party, Frame::Call(Call { step, ..call }));
    }

    /// The call waits for its latch.
    fn wait(&mut self, party: usize, call: Call) {
        if self.parties[party].worker.is_some() {
            self.go_on(party, call, CallStep::Above);
            self.push(party, Frame::Wait(Wait::new(Some(call.number))));
        } else {
            self.go_on(party, call, CallStep::WaitForLock);
        }
    }

    /// The call has only its last lower to make.
    fn close(&mut self, party: usize, call: Call) {
        self.free_calls.push(call.number);
        self.set_top(party, Frame::Lower(call.pool));
    }

    /// The frame on top is done: the one below goes on.
    fn done(&mut self, party: usize) {
        self.parties[party].stack.pop();
        match self.parties[party].stack.last().copied() {
            Some(Frame::Wait(wait)) if wait.at == At::Leaving => self.leave_search(party, wait),
            Some(Frame::Call(call)) if call.step == CallStep::Woken => self.after_news(party, call),
            Some(Frame::Call(call)) if call.step == CallStep::Above => {
                self.go_on(party, call, CallStep::Take)
            }
            _ => {}
        }
    }

    /// The searcher has woken others: it begins its task, or leaves.
    fn leave_search(&mut self, party: usize, wait: Wait) {
        match wait.task {
            Some(task) => self.begin_over(party, Frame::Wait(Wait::new(wait.call)), task),
            None => self.leave_wait(party, wait),
        }
    }

    fn leave_wait(&mut self, party: usize, wait: Wait) {
        match wait.call {
            None => self.set_top(party, Frame::Stopped),
            Some(_) => self.done(party),
        }
    }

    /// The frame stays below a taken task.
    fn begin_over(&mut self, party: usize, below: Frame, task: Task) {
        self.set_top(party, below);
        self.push(party, begin_of(task));
    }

    /// The call has queued its job and woken others.
    fn after_news(&mut self, party: usize, call: Call) {
        match call.kind {
            CallKind::Spawn | CallKind::Fifo | CallKind::Cast => self.done(party),
            CallKind::Enter | CallKind::EnterFifo | CallKind::EnterCast => self.done(party),
            CallKind::Join => {
                self.go_on(party, call, CallStep::Above);
                self.totals.running += 1;
                self.push(party, Frame::Run(Run::Direct));
            }
            _ => self.wait(party, call),
        }
    }

    fn act(&mut self, party: usize, how: How) -> bool {
        let Some(frame) = self.parties[party].stack.last().copied() else {
            return false;
        };
        if !self.may(party, frame, how) {
            return false;
        }
        match frame {
            Frame::Wait(wait) => self.wait_act(party, wait, how),
            Frame::Yield { look, local, victim, left } => {
                self.yield_act(party, look, local, victim, left, how)
            }
            Frame::Call(call) => self.call_act(party, call, how),
            Frame::Begin(run) => {
                self.totals.running += self.begins_at_once(party) as u64;
                self.set_top(party, Frame::Run(run));
                true
            }
            Frame::Redeem { worker, scope } => self.redeem(party, worker, scope),
            Frame::Wake { .. } | Frame::Settle { .. } => self.wake_act(party, frame),
            Frame::StoreSlot(scope) => self.store_slot(party, scope),
            Frame::StorePiece { .. } | Frame::LowerCast(_) => self.end_piece(party, frame),
            Frame::LowerScope(scope) => self.lower_scope(party, scope, 1),
            Frame::LowerScopeAll(scope) => {
                let shares = self.pieces_of(scope);
                self.lower_scope(party, scope, shares)
            }
            Frame::Lower(_) | Frame::LowerAll(_) => self.lower(party, frame),
            Frame::Store { .. } | Frame::SetLock(_) => self.end_act(party, frame),
            Frame::SetCall { .. } | Frame::SetTerminate { .. } => self.set_act(party, frame),
            Frame::Stopped | Frame::Run(_) => false,
        }
    }

    /// Whether the act at this frame can be made in this way.
    fn may(&self, party: usize, frame: Frame, how: How) -> bool {
        let own = self.own_pool(party).map(|pool| &self.pools[pool as usize]);
        match how {
            How::Go => true,
            How::From(victim) => {
                let picks = match frame {
                    Frame::Wait(wait) => wait.at == At::Pick,
                    Frame::Yield { look, .. } => look == Look::Pick,
                    _ => false,
                };
                picks && own.is_some_and(|pool| victim < pool.shape.workers)
            }
            How::Refuse => match frame {
                Frame::Call(call) => matches!(
                    call.step,
                    CallStep::Grow
                        | CallStep::Push
                        | CallStep::Add
                        | CallStep::PushToken | CallStep::Deal
                        | CallStep::OpenSlot
                ),
                _ => false,
            },
            How::Miss => {
                let victim = match frame {
                    Frame::Wait(Wait { at: At::Steal, victim, .. }) => victim,
                    Frame::Yield { look: Look::Steal, victim, .. } => victim,
                    _ => return false,
                };
                own.is_some_and(|pool| {
                    let seat = &self.seats[pool.first_seat + victim as usize];
                    pool.shape.newest_first && seat.deque.len() == 1
                })
            }
        }
    }

    /// Whether the run to be begun is an install's own, whose job was in no queue.
    fn begins_at_once(&self, party: usize) -> bool {
        match self.parties[party].stack.as_slice() {
            [.., Frame::Call(call), Frame::Begin(Run::Direct)] => call.kind == CallKind::Here,
            _ => false,
        }
    }

    /// One act of waking a worker: its lock is taken, it is woken, its lock is left.
    fn wake_act(&mut self, party: usize, frame: Frame) -> bool {
        let (pool, worker, phase) = match frame {
            Frame::Wake { pool, worker, phase, .. } => (pool, worker, phase),
            Frame::Settle { pool, worker, phase, .. } => (pool, worker, phase),
            _ => return false,
        };
        let seat = self.seat_of(pool, worker);
        match phase {
            Phase::Lock => {
                if !self.take_lock(party, seat) {
                    return false;
                }
                self.set_top(party, with_phase(frame, Phase::Wake, 0));
            }
            Phase::Wake => {
                let woken = self.seats[seat].blocked;
                if woken {
                    self.seats[seat].blocked = false;
                    self.pools[pool as usize].sleeping -= 1;
                }
                self.set_top(party, with_phase(frame, Phase::Unlock, woken as u8));
            }
            Phase::Unlock => {
                self.seats[seat].locked = false;
                let last = worker as usize + 1 == self.pools[pool as usize].shape.workers;
                match frame {
                    Frame::Wake { owed, .. } if owed > 0 && !last => {
                        let (worker, phase) = (worker + 1, Phase::Lock);
                        self.set_top(party, Frame::Wake { pool, worker, owed, phase });
                    }
                    Frame::Settle { all: true, .. } => self.next_terminate(party, pool, worker),
                    _ => self.done(party),
                }
            }
        }
        true
    }

    fn take_lock(&mut self, party: usize, seat: usize) -> bool {
        let state = &mut self.seats[seat];
        if state.locked || (party == seat && state.blocked) {
            return false;
        }
        state.locked = true;
        true
    }

    fn next_terminate(&mut self, party: usize, pool: u8, worker: u8) {
        if worker as usize + 1 < self.pools[pool as usize].shape.workers {
            self.set_top(party, Frame::SetTerminate { pool, worker: worker + 1 });
        } else {
            self.done(party);
        }
    }

    fn lower(&mut self, party: usize, frame: Frame) -> bool {
        let (pool, shares) = match frame {
            Frame::LowerAll(pool) => (pool, self.pools[pool as usize].shape.workers as u64),
            Frame::Lower(pool) => (pool, 1),
            _ => return false,
        };
        let count = &mut self.pools[pool as usize].count;
        *count -= shares;
        if *count == 0 {
            self.set_top(party, Frame::SetTerminate { pool, worker: 0 });
        } else {
            self.done(party);
        }
        true
    }

    fn end_act(&mut self, party: usize, frame: Frame) -> bool {
        match frame {
            Frame::Store { call, fault } => {
                let record = &mut self.calls[call as usize];
                record.cell = Some(fault);
                let next = self.set_latch_of(call);
                self.set_top(party, next);
            }
            Frame::SetLock(call) => {
                self.calls[call as usize].latch = Letter::Set;
                self.done(party);
            }
            _ => return false,
        }
        true
    }

    /// The frame that sets the latch of a call.
    fn set_latch_of(&self, call: u32) -> Frame {
        let seat = self.calls[call as usize].owner;
        if (seat as usize) < self.seats.len() {
            Frame::SetCall { seat, call }
        } else {
            Frame::SetLock(call)
        }
    }

    /// Whether no other party holds the book of this scope.
    fn is_book_open(&self, party: usize, scope: u32) -> bool {
        self.scopes[scope as usize].writer.is_none_or(|holder| holder == party)
    }

    fn store_slot(&mut self, party: usize, scope: u32) -> bool {
        let enabled = self.is_book_open(party, scope);
        if enabled {
            self.set_top(party, Frame::LowerScope(scope));
        }
        enabled
    }

    /// How many pieces a broadcast into this scope has.
    fn pieces_of(&self, scope: u32) -> u64 {
        let pool = self.scopes[scope as usize].pool;
        self.pools[pool as usize].shape.workers as u64
    }

    /// The frame that gives back what a refused call has of its scope's count.
    fn undo_enter(call: Call) -> Frame {
        match call.kind {
            CallKind::EnterCast => Frame::LowerScopeAll(call.scope),
            _ => Frame::LowerScope(call.scope),
        }
    }

    fn lower_scope(&mut self, party: usize, scope: u32, shares: u64) -> bool {
        let record = &mut self.scopes[scope as usize];
        record.count -= shares;
        let (call, last) = (record.call, record.count == 0);
        if last {
            let next = self.set_latch_of(call);
            self.set_top(party, next);
        } else {
            self.done(party);
        }
        true
    }

    /// An act of a scope, or of a spawn into one.
    fn scope_act(&mut self, party: usize, call: Call, how: How) -> bool {
        let held = !self.is_book_open(party, call.scope);
        let record = &mut self.scopes[call.scope as usize];
        match call.step {
            CallStep::OpenSlot if how == How::Refuse => self.set_top(party, Self::undo_enter(call)),
            CallStep::LowerBody => {
                record.count -= 1;
                if record.count == 0 {
                    self.go_on(party, call, CallStep::Woken);
                    self.push(party, self.set_latch_of(call.number));
                } else {
                    self.wait(party, call);
                }
            }
            _ if held => return false,
            CallStep::OpenSlot => {
                record.writer = Some(party);
                let next = match call.kind {
                    CallKind::EnterFifo => CallStep::Add,
                    CallKind::EnterCast => CallStep::Deal,
                    _ => CallStep::Look,
                };
                self.go_on(party, call, next);
            }
            CallStep::CloseSlot => {
                record.writer = None;
                self.set_top(party, Self::undo_enter(call));
            }
            _ => self.go_on(party, call, CallStep::LowerBody),
        }
        true
    }

    /// An act at the end of a piece of a broadcast that waits.
    fn end_piece(&mut self, party: usize, frame: Frame) -> bool {
        match frame {
            Frame::StorePiece { call, fault } => {
                let record = &mut self.calls[call as usize];
                record.cell = Some(fault || record.cell == Some(true));
                self.set_top(party, Frame::LowerCast(call));
            }
            Frame::LowerCast(call) => {
                let record = &mut self.calls[call as usize];
                record.count -= 1;
                if record.count == 0 {
                    let next = self.set_latch_of(call);
                    self.set_top(party, next);
                } else {
                    self.done(party);
                }
            }
            _ => return false,
        }
        true
    }

    fn set_act(&mut self, party: usize, frame: Frame) -> bool {
        let (latch, pool, worker, all) = match frame {
            Frame::SetCall { seat, call } => {
                let Some((pool, worker)) = self.parties[seat as usize].worker else {
                    return false;
                };
                (&mut self.calls[call as usize].latch, pool, worker, false)
            }
            Frame::SetTerminate { pool, worker } => {
                let seat = self.seat_of(pool, worker);
                (&mut self.seats[seat].terminate, pool, worker, true)
            }
            _ => return false,
        };
        let slept = *latch == Letter::Sleeping;
        *latch = Letter::Set;
        if slept {
            self.set_top(party, Frame::Settle { pool, worker, all, phase: Phase::Lock });
        } else if all {
            self.next_terminate(party, pool, worker);
        } else {
            self.done(party);
        }
        true
    }

    /// Wakes so many workers of the pool, above the frame on top.
    fn wake(&mut self, party: usize, pool: u8, owed: u32) -> bool {
        if owed > 0 {
            let phase = Phase::Lock;
            self.push(party, Frame::Wake { pool, worker: 0, owed: owed as u8, phase });
        }
        owed > 0
    }

    fn call_act(&mut self, party: usize, call: Call, how: How) -> bool {
        match call.step {
            CallStep::Add | CallStep::LookForToken | CallStep::PushToken | CallStep::TakeBack => {
                return self.fifo_act(party, call, how);
            }
            CallStep::OpenSlot | CallStep::CloseSlot | CallStep::StoreBody | CallStep::LowerBody => {
                return self.scope_act(party, call, how);
            }
            CallStep::Raise if call.kind.enters() => {
                let shares = if call.kind == CallKind::EnterCast { self.pieces_of(call.scope) } else { 1 };
                let record = &mut self.scopes[call.scope as usize];
                if record.count == 0 {
                    self.done(party);
                } else {
                    record.count += shares;
                    self.go_on(party, call, CallStep::OpenSlot);
                }
            }
            CallStep::Raise => self.raise(party, call),
            CallStep::Grow if how == How::Refuse => self.set_top(party, Frame::Lower(call.pool)),
            CallStep::Grow if call.kind == CallKind::Scope => {
                let number = self.open_call(party);
                let record = &mut self.scopes[call.scope as usize];
                record.call = number;
                record.count = 1;
                self.go_on(party, Call { number, ..call }, CallStep::Body);
                self.totals.running += 1;
                self.push(party, Frame::Run(Run::Direct));
            }
            CallStep::Grow if call.kind == CallKind::Broadcast => {
                let number = self.open_call(party);
                let workers = self.pools[call.pool as usize].shape.workers;
                self.calls[number as usize].count = workers as u64;
                self.go_on(party, Call { number, ..call }, CallStep::Deal);
            }
            CallStep::Grow => {
                let number = self.open_call(party);
                self.go_on(party, Call { number, ..call }, CallStep::Look);
            }
            CallStep::Look => {
                let was_empty = self.queue(party, call.pool).is_empty();
                self.go_on(party, Call { was_empty, ..call }, CallStep::Push);
            }
            CallStep::Push if how == How::Refuse => match call.kind {
                CallKind::Spawn => self.set_top(party, Frame::Lower(call.pool)),
                CallKind::Enter => self.go_on(party, call, CallStep::CloseSlot),
                _ => self.close(party, call),
            },
            CallStep::Push => {
                let task = match call.kind {
                    CallKind::Spawn => Task::Detached { pool: call.pool, job: call.job },
                    CallKind::Enter => {
                        self.scopes[call.scope as usize].writer = None;
                        Task::Scoped { scope: call.scope, job: call.job }
                    }
                    _ => Task::Answer(call.number),
                };
                self.queue(party, call.pool).push_back(task);
                self.totals.queued += 1;
                self.go_on(party, call, CallStep::News);
            }
            CallStep::Deal if how == How::Refuse => match call.kind {
                CallKind::EnterCast => self.go_on(party, call, CallStep::CloseSlot),
                CallKind::Broadcast => self.close(party, call),
                _ => self.set_top(party, Frame::LowerAll(call.pool)),
            },
            CallStep::Deal => self.deal(party, call),
            CallStep::News => self.news(party, call),
            _ => return self.later_act(party, call),
        }
        true
    }

    /// Each worker of the pool gets a piece, and all of them are called.
    fn deal(&mut self, party: usize, call: Call) {
        let pool = &self.pools[call.pool as usize];
        let (first, workers) = (pool.first_seat, pool.shape.workers);
        let task = match call.kind {
            CallKind::EnterCast => {
                self.scopes[call.scope as usize].writer = None;
                Task::Scoped { scope: call.scope, job: call.job }
            }
            CallKind::Broadcast => Task::Piece(call.number),
            _ => Task::Detached { pool: call.pool, job: call.job },
        };
        for seat in first..first + workers {
            self.seats[seat].cast.push_back(task);
        }
        self.totals.queued += workers as u64;
        self.go_on(party, call, CallStep::Woken);
        self.wake(party, call.pool, workers as u32);
    }

    /// Whether no other party holds this FIFO list of this worker.
    fn is_open(&mut self, party: usize, seat: usize, scope: Option<u32>) -> bool {
        self.list(seat, scope).feeder.is_none_or(|holder| holder == party)
    }

    /// A refused spawn in order, whose job is in no list: one into a scope has its number to take back.
    fn undo_fifo(&mut self, party: usize, call: Call) {
        match call.kind {
            CallKind::EnterFifo => self.go_on(party, call, CallStep::CloseSlot),
            _ => self.set_top(party, Frame::Lower(call.pool)),
        }
    }

    /// An act of a call that spawns in order.
    fn fifo_act(&mut self, party: usize, call: Call, how: How) -> bool {
        let Some((_, worker)) = self.parties[party].worker else {
            return false;
        };
        let scope = (call.kind == CallKind::EnterFifo).then_some(call.scope);
        match call.step {
            CallStep::Add if how == How::Refuse => self.undo_fifo(party, call),
            CallStep::Add => {
                if !self.is_open(party, party, scope) {
                    return false;
                }
                let list = self.list(party, scope);
                list.jobs.push_back(call.job);
                list.feeder = Some(party);
                self.totals.queued += 1;
                self.go_on(party, call, CallStep::LookForToken);
            }
            CallStep::LookForToken => {
                let was_empty = self.seats[party].deque.is_empty();
                self.go_on(party, Call { was_empty, ..call }, CallStep::PushToken);
            }
            CallStep::PushToken if how == How::Refuse => self.go_on(party, call, CallStep::TakeBack),
            CallStep::PushToken => {
                self.seats[party].deque.push_back(Task::Token { worker, scope });
                self.list(party, scope).feeder = None;
                if let Some(scope) = scope {
                    self.scopes[scope as usize].writer = None;
                }
                self.go_on(party, call, CallStep::News);
            }
            _ => {
                if !self.is_open(party, party, scope) {
                    return false;
                }
                let list = self.list(party, scope);
                list.jobs.pop_back();
                list.feeder = None;
                self.totals.queued -= 1;
                self.undo_fifo(party, call);
            }
        }
        true
    }

    /// A token is redeemed: the first job of its FIFO list begins.
    fn redeem(&mut self, party: usize, worker: u8, scope: Option<u32>) -> bool {
        let Some(pool) = self.own_pool(party) else {
            return false;
        };
        let seat = self.seat_of(pool, worker);
        if !self.is_open(party, seat, scope) {
            return false;
        }
        let list = self.list(seat, scope);
        let Some(job) = list.jobs.pop_front() else {
            self.done(party);
            return true;
        };
        self.totals.queued -= 1;
        self.totals.running += 1;
        let run = match scope {
            Some(scope) => Run::Scoped { scope, job },
            None => Run::Detached { pool, job },
        };
        self.set_top(party, Frame::Run(run));
        true
    }

    /// An act of a call that has queued its job.
    fn later_act(&mut self, party: usize, call: Call) -> bool {
        match call.step {
            CallStep::WaitForLock => {
                if self.calls[call.number as usize].latch != Letter::Set {
                    return false;
                }
                self.go_on(party, call, CallStep::Take);
            }
            CallStep::Take => {
                self.calls[call.number as usize].cell = None;
                self.close(party, call);
            }
            CallStep::Probe => {
                let set = self.calls[call.number as usize].latch == Letter::Set;
                self.go_on(party, call, if set { CallStep::Take } else { CallStep::Pop });
            }
            CallStep::Pop => self.join_pop(party, call),
            CallStep::Cast => match self.take_cast(party) {
                Some(task) => {
                    let again = Frame::Call(Call { step: CallStep::Probe, ..call });
                    self.begin_over(party, again, task);
                }
                None => self.wait(party, call),
            },
            _ => return false,
        }
        true
    }

    fn raise(&mut self, party: usize, call: Call) {
        let pool = &mut self.pools[call.pool as usize];
        let shares = if call.kind == CallKind::Cast { pool.shape.workers as u64 } else { 1 };
        let count = &mut pool.count;
        if *count == 0 {
            self.done(party);
            return;
        }
        *count += shares;
        match call.kind {
            CallKind::Cast => self.go_on(party, call, CallStep::Deal),
            CallKind::Spawn => self.go_on(party, call, CallStep::Look),
            CallKind::Fifo => self.go_on(party, call, CallStep::Add),
            CallKind::Here => {
                self.go_on(party, call, CallStep::Second);
                self.push(party, Frame::Begin(Run::Direct));
            }
            _ => self.go_on(party, call, CallStep::Grow),
        }
    }

    /// The queue of the pool that this party adds to.
    fn queue(&mut self, party: usize, pool: u8) -> &mut std::collections::VecDeque<Task> {
        if self.own_pool(party) == Some(pool) {
            &mut self.seats[party].deque
        } else {
            &mut self.pools[pool as usize].injector
        }
    }

    fn news(&mut self, party: usize, call: Call) {
        let mask = self.mask;
        let pool = &mut self.pools[call.pool as usize];
        if pool.turn & mask & 1 == 0 {
            pool.turn += 1;
        }
        let awake = pool.inactive - pool.sleeping;
        let wakes = pool.sleeping > 0 && (!call.was_empty || awake == 0);
        self.go_on(party, call, CallStep::Woken);
        if !self.wake(party, call.pool, wakes as u32) {
            self.after_news(party, call);
        }
    }

    fn join_pop(&mut self, party: usize, call: Call) {
        match self.pop_own(party) {
            Some(task) if task == Task::Answer(call.number) => {
                self.go_on(party, call, CallStep::Second);
                self.push(party, Frame::Begin(Run::Direct));
            }
            Some(task) => {
                let again = Frame::Call(Call { step: CallStep::Probe, ..call });
                self.begin_over(party, again, task);
            }
            None => self.go_on(party, call, CallStep::Cast),
        }
    }

    fn taken(&mut self, task: Found) -> Found {
        if task.is_some_and(|task| !matches!(task, Task::Token { .. })) {
            self.totals.queued -= 1;
            self.totals.running += 1;
        }
        task
    }

    fn pop_own(&mut self, seat: usize) -> Found {
        let newest_first = match self.own_pool(seat) {
            Some(pool) => self.pools[pool as usize].shape.newest_first,
            None => return None,
        };
        let deque = &mut self.seats[seat].deque;
        let task = if newest_first { deque.pop_back() } else { deque.pop_front() };
        self.taken(task)
    }

    fn steal(&mut self, pool: u8, victim: u8, how: How) -> Found {
        if how == How::Miss {
            return None;
        }
        let seat = self.seat_of(pool, victim);
        let task = self.seats[seat].deque.pop_front();
        self.taken(task)
    }

    fn take_cast(&mut self, seat: usize) -> Found {
        let task = self.seats[seat].cast.pop_front();
        self.taken(task)
    }

    fn pop_injected(&mut self, pool: u8) -> Found {
        let task = self.pools[pool as usize].injector.pop_front();
        self.taken(task)
    }

    /// The victim to begin with, and how many are left after it.
    fn first_victim(&self, pool: u8, thief: u8, how: How) -> (u8, u8) {
        let workers = self.pools[pool as usize].shape.workers;
        let start = match how {
            How::From(victim) => victim,
            _ => 0,
        };
        let victim = if start == thief as usize { (start + 1) % workers } else { start };
        (victim as u8, workers as u8 - 2)
    }

    fn next_victim(&self, pool: u8, thief: u8, victim: u8) -> u8 {
        let workers = self.pools[pool as usize].shape.workers;
        let next = (victim as usize + 1) % workers;
        if next == thief as usize { ((next + 1) % workers) as u8 } else { next as u8 }
    }

    fn yield_act(&mut self, party: usize, look: Look, local: bool, victim: u8, left: u8, how: How) -> bool {
        let Some((pool, index)) = self.parties[party].worker else {
            return false;
        };
        let one = self.pools[pool as usize].shape.workers == 1;
        let to = |look| Some(Frame::Yield { look, local, victim, left });
        let (task, next) = match look {
            Look::Pop => (self.pop_own(party), to(Look::Cast)),
            Look::Cast if local => (self.take_cast(party), None),
            Look::Cast => (self.take_cast(party), to(if one { Look::Injected } else { Look::Pick })),
            Look::Pick => {
                let (victim, left) = self.first_victim(pool, index, how);
                (None, Some(Frame::Yield { look: Look::Steal, local, victim, left }))
            }
            Look::Steal => {
                let task = self.steal(pool, victim, how);
                let next = if left == 0 {
                    to(Look::Injected)
                } else {
                    let victim = self.next_victim(pool, index, victim);
                    Some(Frame::Yield { look, local, victim, left: left - 1 })
                };
                (task, next)
            }
            Look::Injected => (self.pop_injected(pool), None),
        };
        match (task, next) {
            (Some(task), _) => self.set_top(party, begin_of(task)),
            (None, Some(frame)) => self.set_top(party, frame),
            (None, None) => self.done(party),
        }
        true
    }

    fn latch(&mut self, seat: usize, wait: Wait) -> &mut Letter {
        match wait.call {
            None => &mut self.seats[seat].terminate,
            Some(call) => &mut self.calls[call as usize].latch,
        }
    }

    fn wait_act(&mut self, party: usize, wait: Wait, how: How) -> bool {
        match wait.at {
            At::ProbeWorking | At::PopWorking | At::CastWorking | At::BecomeInactive => {
                self.work(party, wait)
            }
            At::ProbeIdle | At::PopIdle | At::CastIdle | At::Pick | At::Steal | At::PopInjected => {
                self.search(party, wait, how)
            }
            At::Announce | At::Sleepy | At::LockOwn | At::Asleep | At::Load | At::TryAdd => {
                self.fall_asleep(party, wait)
            }
            At::SubInactive => self.stop_searching(party, wait),
            _ => self.wake_up(party, wait),
        }
    }

    fn stand(&mut self, party: usize, wait: Wait, at: At) -> bool {
        self.set_top(party, Frame::Wait(Wait { at, ..wait }));
        true
    }

    fn work(&mut self, party: usize, wait: Wait) -> bool {
        match wait.at {
            At::ProbeWorking => {
                if *self.latch(party, wait) == Letter::Set {
                    self.leave_wait(party, wait);
                    return true;
                }
                self.stand(party, wait, At::PopWorking)
            }
            At::PopWorking => match self.pop_own(party) {
                Some(task) => {
                    self.begin_over(party, Frame::Wait(Wait::new(wait.call)), task);
                    true
                }
                None => self.stand(party, wait, At::CastWorking),
            },
            At::CastWorking => match self.take_cast(party) {
                Some(task) => {
                    self.begin_over(party, Frame::Wait(Wait::new(wait.call)), task);
                    true
                }
                None => self.stand(party, wait, At::BecomeInactive),
            },
            _ => {
                let Some((pool, _)) = self.parties[party].worker else {
                    return false;
                };
                self.pools[pool as usize].inactive += 1;
                self.stand(party, Wait { rounds: 0, ..wait }, At::ProbeIdle)
            }
        }
    }

    fn search(&mut self, party: usize, wait: Wait, how: How) -> bool {
        let Some((pool, index)) = self.parties[party].worker else {
            return false;
        };
        let shape = self.pools[pool as usize].shape;
        let (task, next) = match wait.at {
            At::ProbeIdle if *self.latch(party, wait) == Letter::Set => {
                return self.stand(party, Wait { task: None, ..wait }, At::SubInactive);
            }
            At::ProbeIdle => (None, wait_at(wait, At::PopIdle)),
            At::PopIdle => (self.pop_own(party), wait_at(wait, At::CastIdle)),
            At::CastIdle if shape.workers == 1 => (self.take_cast(party), wait_at(wait, At::PopInjected)),
            At::CastIdle => (self.take_cast(party), wait_at(wait, At::Pick)),
            At::Pick => {
                let (victim, left) = self.first_victim(pool, index, how);
                (None, Wait { at: At::Steal, victim, left, ..wait })
            }
            At::Steal => {
                let task = self.steal(pool, wait.victim, how);
                let next = if wait.left == 0 {
                    wait_at(wait, At::PopInjected)
                } else {
                    let victim = self.next_victim(pool, index, wait.victim);
                    Wait { victim, left: wait.left - 1, ..wait }
                };
                (task, next)
            }
            _ => (self.pop_injected(pool), after_search(wait, shape.limit)),
        };
        match task {
            Some(_) => self.stand(party, Wait { task, ..wait }, At::SubInactive),
            None => {
                self.set_top(party, Frame::Wait(next));
                true
            }
        }
    }

    fn fall_asleep(&mut self, party: usize, wait: Wait) -> bool {
        let Some((own, _)) = self.parties[party].worker else {
            return false;
        };
        let mask = self.mask;
        let pool = &mut self.pools[own as usize];
        match wait.at {
            At::Announce => {
                if pool.turn & mask & 1 == 1 {
                    pool.turn += 1;
                }
                let kept = pool.turn & mask;
                self.stand(party, Wait { rounds: wait.rounds + 1, kept, ..wait }, At::ProbeIdle)
            }
            At::Sleepy => {
                let done = exchange(self.latch(party, wait), Letter::Unset, Letter::Sleepy);
                self.stand(party, wait, if done { At::LockOwn } else { At::ProbeIdle })
            }
            At::LockOwn => self.take_lock(party, party) && self.stand(party, wait, At::Asleep),
            At::Asleep => {
                if exchange(self.latch(party, wait), Letter::Sleepy, Letter::Sleeping) {
                    self.stand(party, wait, At::Load)
                } else {
                    self.stand(party, Wait { rounds: 0, ..wait }, At::Unlock)
                }
            }
            _ => self.count_asleep(party, own, wait),
        }
    }

    /// The worker reads the counters, and adds itself to the sleeping ones.
    fn count_asleep(&mut self, party: usize, own: u8, wait: Wait) -> bool {
        let mask = self.mask;
        let pool = &mut self.pools[own as usize];
        match wait.at {
            At::Load => {
                let word = (pool.sleeping, pool.inactive, pool.turn & mask);
                if word.2 == wait.kept {
                    self.stand(party, Wait { word, ..wait }, At::TryAdd)
                } else {
                    let rounds = pool.shape.limit;
                    self.stand(party, Wait { rounds, ..wait }, At::Wakeup)
                }
            }
            _ => {
                if wait.word == (pool.sleeping, pool.inactive, pool.turn & mask) {
                    pool.sleeping += 1;
                    self.stand(party, wait, At::LookCast)
                } else {
                    self.stand(party, wait, At::Load)
                }
            }
        }
    }

    fn wake_up(&mut self, party: usize, wait: Wait) -> bool {
        let Some((own, _)) = self.parties[party].worker else {
            return false;
        };
        let pool = &mut self.pools[own as usize];
        let fresh = Wait { rounds: 0, ..wait };
        match wait.at {
            At::LookCast => {
                let empty = self.seats[party].cast.is_empty();
                self.stand(party, wait, if empty { At::LookInjector } else { At::SubSleeping })
            }
            At::LookInjector => {
                let at = if pool.injector.is_empty() { At::Block } else { At::SubSleeping };
                self.stand(party, wait, at)
            }
            At::Block => {
                self.seats[party].blocked = true;
                self.seats[party].locked = false;
                self.stand(party, wait, At::Relock)
            }
            At::Relock => self.take_lock(party, party) && self.stand(party, fresh, At::Wakeup),
            At::SubSleeping => {
                pool.sleeping -= 1;
                self.stand(party, fresh, At::Wakeup)
            }
            At::Wakeup => {
                let latch = self.latch(party, wait);
                if *latch != Letter::Set {
                    *latch = Letter::Unset;
                }
                self.stand(party, wait, At::Unlock)
            }
            _ => {
                self.seats[party].locked = false;
                self.stand(party, wait, At::ProbeIdle)
            }
        }
    }

    /// The worker is active again, and wakes others.
    fn stop_searching(&mut self, party: usize, wait: Wait) -> bool {
        let Some((own, _)) = self.parties[party].worker else {
            return false;
        };
        let pool = &mut self.pools[own as usize];
        pool.inactive -= 1;
        let owed = pool.sleeping.min(2);
        self.stand(party, wait, At::Leaving);
        if !self.wake(party, own, owed) {
            self.leave_search(party, wait);
        }
        true
    }
}

/// What was taken is begun.
fn begin_of(task: Task) -> Frame {
    match task {
        Task::Detached { pool, job } => Frame::Begin(Run::Detached { pool, job }),
        Task::Answer(call) => Frame::Begin(Run::Answer(call)),
        Task::Scoped { scope, job } => Frame::Begin(Run::Scoped { scope, job }),
        Task::Piece(call) => Frame::Begin(Run::Piece(call)),
        Task::Token { worker, scope } => Frame::Redeem { worker, scope },
    }
}

fn wait_at(wait: Wait, at: At) -> Wait {
    Wait { at, ..wait }
}

/// The injector was empty: the next round, or the way to sleep.
fn after_search(wait: Wait, limit: u8) -> Wait {
    match wait.rounds.cmp(&limit) {
        std::cmp::Ordering::Less => Wait { rounds: wait.rounds + 1, at: At::ProbeIdle, ..wait },
        std::cmp::Ordering::Equal => wait_at(wait, At::Announce),
        std::cmp::Ordering::Greater => wait_at(wait, At::Sleepy),
    }
}

fn exchange(latch: &mut Letter, from: Letter, to: Letter) -> bool {
    let done = *latch == from;
    if done {
        *latch = to;
    }
    done
}

fn with_phase(frame: Frame, phase: Phase, woken: u8) -> Frame {
    match frame {
        Frame::Wake { pool, worker, owed, .. } => Frame::Wake { pool, worker, owed: owed - woken, phase },
        Frame::Settle { pool, worker, all, .. } => Frame::Settle { pool, worker, all, phase },
        other => other,
    }
}
