//! The names of acts, as the text prints them, what a replay reaches, and the jobs that it begins.

use crate::step::{Event, How};
use crate::world::{At, CallKind, CallStep, Frame, Look, Run, World};
use std::collections::BTreeSet;

/// The name of the next act of a party, `Free` or `Stopped`.
pub fn act_name(world: &World, party: usize) -> &'static str {
    let Some(frame) = world.parties[party].stack.last() else {
        return "Free";
    };
    match frame {
        Frame::Wait(wait) => wait_names(wait.at).1,
        Frame::Stopped => "Stopped",
        Frame::Begin(_) => "Begin",
        Frame::Redeem { .. } => "FifoOut",
        Frame::Run(_) => "Free",
        Frame::Call(call) => call_act(world.own_pool(party) == Some(call.pool), call.step),
        Frame::Yield { look, .. } => yield_act(*look),
        Frame::Wake { phase, .. } | Frame::Settle { phase, .. } => match phase {
            crate::world::Phase::Lock => "Lock",
            crate::world::Phase::Wake => "Wake",
            crate::world::Phase::Unlock => "Unlock",
        },
        Frame::Lower(_) | Frame::LowerAll(_) => "Lower",
        Frame::LowerScope(_) | Frame::LowerScopeAll(_) | Frame::LowerCast(_) => "Lower",
        Frame::Store { .. } | Frame::StoreSlot(_) | Frame::StorePiece { .. } => "Store",
        Frame::SetLock(_) => "LockSet",
        Frame::SetCall { .. } | Frame::SetTerminate { .. } => "Set",
    }
}

/// The name that the machine's sources give the next act of a party.
fn variant_name(world: &World, party: usize) -> &'static str {
    match world.parties[party].stack.last() {
        Some(Frame::Call(call)) if call.kind.casts() => match call.step {
            CallStep::Raise => "RaiseAll",
            CallStep::OpenSlot => "SlotAll",
            CallStep::CloseSlot => "SlotUndoAll",
            _ => act_name(world, party),
        },
        Some(Frame::LowerAll(_) | Frame::LowerScopeAll(_)) => "LowerAll",
        _ => act_name(world, party),
    }
}

fn call_act(own: bool, step: CallStep) -> &'static str {
    match step {
        CallStep::Raise => "Raise",
        CallStep::Grow => "Grow",
        CallStep::Look if own => "LookOwn",
        CallStep::Look => "LookInj",
        CallStep::Push if own => "PushOwn",
        CallStep::Push => "PushInj",
        CallStep::Add => "FifoIn",
        CallStep::LookForToken => "LookOwn",
        CallStep::PushToken => "PushOwn",
        CallStep::TakeBack => "FifoUndo",
        CallStep::Deal => "PushCast",
        CallStep::OpenSlot => "Slot",
        CallStep::CloseSlot => "SlotUndo",
        CallStep::StoreBody => "Store",
        CallStep::LowerBody => "Lower",
        CallStep::News => "News",
        CallStep::WaitForLock => "LockWait",
        CallStep::Take => "Take",
        CallStep::Probe => "Probe",
        CallStep::Pop => "PopOwn",
        CallStep::Cast => "TakeCast",
        CallStep::Woken | CallStep::Above | CallStep::Body | CallStep::Second => "none",
    }
}

fn yield_act(look: Look) -> &'static str {
    match look {
        Look::Pop => "PopOwn",
        Look::Cast => "TakeCast",
        Look::Pick => "Pick",
        Look::Steal => "Steal",
        Look::Injected => "PopInj",
    }
}

/// The place's and the act's name.
fn wait_names(at: At) -> (&'static str, &'static str) {
    match at {
        At::ProbeWorking => ("ProbeWorking", "Probe"),
        At::PopWorking => ("PopWorking", "PopOwn"),
        At::CastWorking => ("TakeCastWorking", "TakeCast"),
        At::BecomeInactive => ("BecomeInactive", "AddInactive"),
        At::ProbeIdle => ("ProbeIdle", "Probe"),
        At::PopIdle => ("PopIdle", "PopOwn"),
        At::CastIdle => ("TakeCastIdle", "TakeCast"),
        At::Pick => ("PickVictim", "Pick"),
        At::Steal => ("StealFrom", "Steal"),
        At::PopInjected => ("PopInjected", "PopInj"),
        At::Announce => ("AnnounceSelf", "Announce"),
        At::Sleepy => ("GetSleepy", "Sleepy"),
        At::LockOwn => ("LockOwn", "Lock"),
        At::Asleep => ("FallAsleep", "Asleep"),
        At::Load => ("LoadCounters", "Load"),
        At::TryAdd => ("AddSleeping", "TryAdd"),
        At::LookCast => ("LookAtCast", "LookCast"),
        At::LookInjector => ("LookAtInjector", "LookInj"),
        At::Block => ("BlockSelf", "Block"),
        At::Relock => ("RelockOwn", "Lock"),
        At::SubSleeping => ("UndoSleeping", "SubSleeping"),
        At::Wakeup => ("WakeUp", "Wakeup"),
        At::Unlock => ("UnlockOwn", "Unlock"),
        At::SubInactive => ("LeaveSearch", "SubInactive"),
        At::Leaving => ("Leaving", "none"),
    }
}

fn call_place(kind: CallKind, step: CallStep, above: Option<&Frame>) -> &'static str {
    match step {
        CallStep::Raise if kind.casts() => "RaiseForAll",
        CallStep::OpenSlot if kind.casts() => "OpenForAll",
        CallStep::CloseSlot if kind.casts() => "CloseForAll",
        CallStep::Raise => "RaiseCount",
        CallStep::Grow if kind == CallKind::Scope => "GrowScope",
        CallStep::Grow if kind == CallKind::Broadcast => "GrowCast",
        CallStep::Deal if kind == CallKind::Broadcast => "DealPieces",
        CallStep::Grow => "GrowCall",
        CallStep::Look => "LookQueue",
        CallStep::Push => "PushJob",
        CallStep::Add => "AddToFifo",
        CallStep::LookForToken => "LookForToken",
        CallStep::PushToken => "PushToken",
        CallStep::TakeBack => "TakeFromFifo",
        CallStep::Deal => "PushForAll",
        CallStep::OpenSlot => "OpenSlot",
        CallStep::CloseSlot => "CloseSlot",
        CallStep::Body => "ScopeBody",
        CallStep::StoreBody => "StoreBody",
        CallStep::LowerBody => "LowerCount",
        CallStep::News => "TellNews",
        CallStep::WaitForLock => "WaitForLock",
        CallStep::Take => "TakeResult",
        CallStep::Probe => "JoinProbe",
        CallStep::Pop => "JoinPop",
        CallStep::Cast => "JoinTakeCast",
        CallStep::Second if kind == CallKind::Here => "AtOnce",
        CallStep::Second => "SecondSide",
        CallStep::Above => match above {
            Some(Frame::Run(_)) => "FirstSide",
            _ => "below a wait",
        },
        CallStep::Woken => "below a wake",
    }
}

fn yield_place(look: Look, local: bool) -> &'static str {
    match (look, local) {
        (Look::Pop, true) => "LocalPop",
        (_, true) => "LocalTakeCast",
        (Look::Pop, _) => "YieldPop",
        (Look::Cast, _) => "YieldTakeCast",
        (Look::Pick, _) => "YieldPick",
        (Look::Steal, _) => "YieldSteal",
        (Look::Injected, _) => "YieldPopInjected",
    }
}

/// The name of a place on a stack, with what stands above it.
fn place(frame: &Frame, above: Option<&Frame>) -> &'static str {
    use crate::world::Phase;
    match frame {
        Frame::Wait(wait) => wait_names(wait.at).0,
        Frame::Stopped => "Stopped",
        Frame::Begin(Run::Direct) => "BeginHere",
        Frame::Begin(_) | Frame::Redeem { .. } => "BeginTask",
        Frame::Run(_) => "Run",
        Frame::Call(call) => call_place(call.kind, call.step, above),
        Frame::Yield { look, local, .. } => yield_place(*look, *local),
        Frame::Wake { phase: Phase::Lock, .. } => "LockToWake",
        Frame::Wake { phase: Phase::Wake, .. } => "WakeWorker",
        Frame::Wake { phase: Phase::Unlock, .. } => "UnlockWoken",
        Frame::Settle { phase: Phase::Lock, .. } => "LockToSettle",
        Frame::Settle { phase: Phase::Wake, .. } => "WakeSettled",
        Frame::Settle { phase: Phase::Unlock, .. } => "UnlockSettled",
        Frame::Lower(_) | Frame::LowerScope(_) | Frame::LowerCast(_) => "LowerCount",
        Frame::LowerAll(_) | Frame::LowerScopeAll(_) => "LowerForAll",
        Frame::Store { .. } => "StoreResult",
        Frame::StoreSlot(_) => "StoreSlot",
        Frame::StorePiece { .. } => "StorePiece",
        Frame::SetLock(_) => "SetLockLatch",
        Frame::SetCall { .. } | Frame::SetTerminate { .. } => "SetLatch",
    }
}

/// The job that an enabled event begins, by the number of the call that made it; none where it begins none, or one
/// that a call waits for by itself.
pub fn begun(world: &World, event: Event) -> Option<u32> {
    let Event::Act { party, .. } = event else {
        return None;
    };
    match world.parties[party].stack.last()? {
        Frame::Begin(Run::Detached { job, .. } | Run::Scoped { job, .. }) => Some(*job),
        Frame::Redeem { worker, scope } => {
            let seat = world.seat_of(world.own_pool(party)?, *worker);
            world.seats[seat].lists.get(scope)?.jobs.front().copied()
        }
        _ => None,
    }
}

/// What replays reach: places and acts by name, and refused acts.
#[derive(Default)]
pub struct Reached {
    pub names: BTreeSet<String>,
}

impl Reached {
    /// Notes the places of all parties.
    pub fn places(&mut self, world: &World) {
        for party in &world.parties {
            let stack = &party.stack;
            if stack.is_empty() {
                self.note("place Free");
            }
            for (height, frame) in stack.iter().enumerate() {
                let name = place(frame, stack.get(height + 1));
                self.note(&format!("place {name}"));
            }
        }
    }

    /// Notes the act that an enabled event makes, and what it is of; or the run that it ends.
    pub fn act(&mut self, world: &World, event: Event) {
        if let Event::End { party, fault } = event {
            self.end(world, party, fault);
        }
        let Event::Act { party, how } = event else {
            return;
        };
        let name = variant_name(world, party);
        self.note(&format!("act {name}"));
        match how {
            How::Refuse => self.note(&format!("refused {name}")),
            How::Miss => self.note("missed Steal"),
            How::From(_) => self.note("chosen Pick"),
            How::Go => {}
        }
        if let Some(Frame::Call(call)) = world.parties[party].stack.last() {
            let kind = call.kind;
            self.note(&format!("act {name} of {kind:?}"));
            let of_pool = !kind.enters();
            let ended = of_pool && call.step == CallStep::Raise && world.pools[call.pool as usize].count == 0;
            if ended {
                self.note(&format!("refused {name}"));
            }
            if ended || how == How::Refuse {
                self.note(&format!("refused {name} of {kind:?}"));
            }
        }
    }

    /// Notes the end of the run on top of a party's stack.
    fn end(&mut self, world: &World, party: usize, fault: bool) {
        let stack = &world.parties[party].stack;
        let run = match stack.as_slice() {
            [.., Frame::Run(Run::Detached { .. })] => "detached job",
            [.., Frame::Run(Run::Answer(_))] => "answer",
            [.., Frame::Run(Run::Scoped { .. })] => "job of a scope",
            [.., Frame::Run(Run::Piece(_))] => "piece",
            [.., Frame::Call(call), Frame::Run(Run::Direct)] => match (call.kind, call.step) {
                (CallKind::Scope, _) => "body",
                (CallKind::Join, CallStep::Above) => "first side",
                (CallKind::Join, _) => "second side",
                _ => "install at once",
            },
            _ => return,
        };
        let ending = if fault { "fault" } else { "ok" };
        self.note(&format!("end {run} {ending}"));
    }

    fn note(&mut self, name: &str) {
        if !self.names.contains(name) {
            self.names.insert(name.to_string());
        }
    }
}
