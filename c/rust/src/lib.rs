//! A safe wrapper of libpim: an example of how a language wraps it, not a part of what is proved.
//!
//! A [`Manager`] owns its memory and isn't `Sync`, so that the rules that `pim.h` gives to a caller hold by themselves:
//! one call at a time, no copy of the handle, and a drop at the end.
//!
//! ```
//! use pim::{Manager, Op, Protocol, Reply};
//!
//! let mut locks = Manager::new(&[10, 50, 90], &[Protocol::Inherit])?;
//! assert_eq!(locks.step(1, Op::Lock(1)), Reply::Granted);
//! assert_eq!(locks.step(3, Op::Lock(1)), Reply::Queued);
//! assert_eq!(locks.effective(1), Some(90));
//! assert_eq!(locks.step(1, Op::Unlock(1)), Reply::Handed(3));
//! # Ok::<(), pim::MakeFault>(())
//! ```

mod c;
#[cfg(test)]
mod tests;

/// Stands for the task that asks, in `Cancel`, `SetBase` and `SetCeiling` alone, where the kernel asks and no task.
pub const KERNEL: u16 = 0;

/// The protocol of a mutex.
#[derive(Clone, Copy, Debug, PartialEq, Eq)]
pub enum Protocol {
    None,
    Inherit,
    Protect(u16),
    /// As `Inherit`; and the owner may lock the mutex again.
    InheritRecursive,
}

/// What a step asks for.
#[derive(Clone, Copy, Debug, PartialEq, Eq)]
pub enum Op {
    Lock(u16),
    Try(u16),
    Unlock(u16),
    ReleaseAll,
    Cancel(u16),
    SetBase(u16, u16),
    SetCeiling(u16, u16),
}

/// Why a step is refused.
#[derive(Clone, Copy, Debug, PartialEq, Eq)]
pub enum Refusal {
    NoTask,
    Waiting,
    NoMutex,
    Deadlock,
    Ceiling,
    Busy,
    NotOwner,
    NotWaiting,
    Priority,
    Tickets,
    NotProtect,
    Again,
    NoProtocol,
    Protect,
    /// One of a later version of libpim.
    Other(u8),
}

/// What a step is answered.
#[derive(Clone, Copy, Debug, PartialEq, Eq)]
pub enum Reply {
    Granted,
    Queued,
    Freed,
    Handed(u16),
    Released(u16),
    Withdrawn,
    Set,
    Refused(Refusal),
    Kept,
    /// One of a later version of libpim.
    Other(u8),
}

/// Why no manager was made.
#[derive(Clone, Copy, Debug, PartialEq, Eq)]
pub enum MakeFault {
    TooManyTasks,
    TooManyMutexes,
    BadBase,
    BadProtocol,
    NoMemory,
}

impl std::fmt::Display for MakeFault {
    fn fmt(&self, f: &mut std::fmt::Formatter<'_>) -> std::fmt::Result {
        let text = match self {
            MakeFault::TooManyTasks => "more than 256 tasks",
            MakeFault::TooManyMutexes => "more than 256 mutexes",
            MakeFault::BadBase => "a base priority isn't 1 to 99",
            MakeFault::BadProtocol => "a ceiling isn't 1 to 99",
            MakeFault::NoMemory => "out of memory",
        };
        f.write_str(text)
    }
}

impl std::error::Error for MakeFault {}

/// Why a task has its effective priority.
#[derive(Clone, Copy, Debug, PartialEq, Eq)]
pub enum Reason {
    /// It is its base priority.
    Base,
    /// It is the ceiling of a PROTECT mutex that it owns.
    Ceiling { mutex: u16 },
    /// It is that of a task that waits for a mutex that it owns.
    Waiter { task: u16, mutex: u16 },
    /// One of a later version of libpim.
    Other(u16),
}

/// A task whose effective priority a step changed.
#[derive(Clone, Copy, Debug, PartialEq, Eq)]
pub struct ChangedTask {
    pub task: u16,
    pub prio: u16,
    pub reason: Reason,
}

/// A task whose effective priority a step changed, with its priority after the step.
#[derive(Clone, Copy, Debug, PartialEq, Eq)]
pub struct ChangedPrio {
    pub task: u16,
    pub prio: u16,
}

/// A mutex that a step handed to a waiter.
#[derive(Clone, Copy, Debug, PartialEq, Eq)]
pub struct HandedMutex {
    pub mutex: u16,
    /// Its new owner.
    pub task: u16,
}

/// A manager of tasks and mutexes.
pub struct Manager {
    handle: c::Handle,
    changed: Vec<c::ChangedTask>,
    prios: Vec<c::ChangedPrio>,
    handed: Vec<c::Handed>,
}

// Nothing behind the handle belongs to a thread, and no other handle leads there.
unsafe impl Send for Manager {}

impl Manager {
    /// Returns a manager of tasks with these base priorities and of mutexes with these protocols.
    pub fn new(bases: &[u16], protocols: &[Protocol]) -> Result<Manager, MakeFault> {
        let protocols: Vec<c::Protocol> =
            protocols.iter().map(|protocol| protocol.to_c()).collect();
        let mut handle = c::Handle::EMPTY;
        // The handle is empty, and a slice's pointer is never null.
        let fault = unsafe {
            c::pim_make(
                &mut handle,
                bases.as_ptr(),
                bases.len(),
                protocols.as_ptr(),
                protocols.len(),
            )
        };
        match MakeFault::of(fault) {
            None => Ok(Manager {
                handle,
                changed: vec![c::ChangedTask::default(); bases.len()],
                prios: vec![c::ChangedPrio::default(); bases.len()],
                handed: vec![c::Handed::default(); protocols.len()],
            }),
            Some(fault) => Err(fault),
        }
    }

    /// Makes one step of the task, or of [`KERNEL`]. Any numbers may be passed.
    pub fn step(&mut self, task: u16, op: Op) -> Reply {
        let h = &mut self.handle;
        Reply::of(unsafe {
            match op {
                Op::Lock(mutex) => c::pim_lock(h, task, mutex),
                Op::Try(mutex) => c::pim_try(h, task, mutex),
                Op::Unlock(mutex) => c::pim_unlock(h, task, mutex),
                Op::ReleaseAll => c::pim_release_all(h, task),
                Op::Cancel(target) => c::pim_cancel(h, task, target),
                Op::SetBase(target, prio) => c::pim_set_base(h, task, target, prio),
                Op::SetCeiling(mutex, ceiling) => c::pim_set_ceiling(h, task, mutex, ceiling),
            }
        })
    }

    /// Gives a free mutex this protocol. No priority changes. It is no step.
    pub fn set_protocol(&mut self, mutex: u16, protocol: Protocol) -> Result<(), Refusal> {
        let protocol = protocol.to_c();
        let answer = unsafe {
            c::pim_set_protocol(&mut self.handle, mutex, protocol.kind, protocol.ceiling)
        };
        Reply::of(answer).done()
    }

    /// Makes the task the owner of a free mutex that isn't a PROTECT one, even while the task waits. No priority
    /// changes. It is no step.
    pub fn adopt(&mut self, task: u16, mutex: u16) -> Result<(), Refusal> {
        Reply::of(unsafe { c::pim_adopt(&mut self.handle, task, mutex) }).done()
    }

    /// Returns the tasks whose effective priority the last step changed, in ascending order.
    pub fn changed(&mut self) -> impl Iterator<Item = ChangedTask> + '_ {
        let room = self.changed.len();
        let count = unsafe { c::pim_changed(&self.handle, self.changed.as_mut_ptr(), room) };
        self.changed[..count].iter().map(|one| ChangedTask {
            task: one.task,
            prio: one.prio,
            reason: Reason::of(one.reason),
        })
    }

    /// Returns the tasks of `changed`, in the same order, without the reasons.
    pub fn changed_prios(&mut self) -> impl Iterator<Item = ChangedPrio> + '_ {
        let room = self.prios.len();
        let count = unsafe { c::pim_changed_prios(&self.handle, self.prios.as_mut_ptr(), room) };
        self.prios[..count].iter().map(|one| ChangedPrio {
            task: one.task,
            prio: one.prio,
        })
    }

    /// Returns the mutexes that the last step handed to waiters, in ascending order.
    pub fn handed(&mut self) -> impl Iterator<Item = HandedMutex> + '_ {
        let room = self.handed.len();
        let count = unsafe { c::pim_handed(&self.handle, self.handed.as_mut_ptr(), room) };
        self.handed[..count].iter().map(|one| HandedMutex {
            mutex: one.mutex,
            task: one.task,
        })
    }

    /// Returns how many tasks there are.
    pub fn tasks(&self) -> u16 {
        unsafe { c::pim_task_count(&self.handle) }
    }

    /// Returns the priority at which the task is to execute, None for an unknown one.
    pub fn effective(&self, task: u16) -> Option<u16> {
        let prio = unsafe { c::pim_effective_prio(&self.handle, task) };
        (prio != 0).then_some(prio)
    }

    /// Returns the owner of the mutex, None where it is free or unknown.
    pub fn owner(&self, mutex: u16) -> Option<u16> {
        known(unsafe { c::pim_owner(&self.handle, mutex) })
    }

    /// Returns how often the owner of the mutex has locked it, 0 where it is free, None for an unknown one.
    pub fn count(&self, mutex: u16) -> Option<u16> {
        let count = unsafe { c::pim_lock_count(&self.handle, mutex) };
        (count != u16::MAX).then_some(count)
    }

    /// Returns the mutex that the task waits for, if it waits for one.
    pub fn waits_for(&self, task: u16) -> Option<u16> {
        known(unsafe { c::pim_waits_for(&self.handle, task) })
    }
}

impl Drop for Manager {
    fn drop(&mut self) {
        unsafe { c::pim_drop(&mut self.handle) }
    }
}

impl Protocol {
    fn to_c(self) -> c::Protocol {
        match self {
            Protocol::None => c::Protocol {
                kind: 0,
                ceiling: 0,
            },
            Protocol::Inherit => c::Protocol {
                kind: 1,
                ceiling: 0,
            },
            Protocol::Protect(ceiling) => c::Protocol { kind: 2, ceiling },
            Protocol::InheritRecursive => c::Protocol {
                kind: 3,
                ceiling: 0,
            },
        }
    }
}

impl MakeFault {
    // None where a manager was made; an empty handle is never occupied
    fn of(number: u32) -> Option<MakeFault> {
        match number {
            0 => None,
            2 => Some(MakeFault::TooManyTasks),
            3 => Some(MakeFault::TooManyMutexes),
            4 => Some(MakeFault::BadBase),
            5 => Some(MakeFault::BadProtocol),
            _ => Some(MakeFault::NoMemory),
        }
    }
}

impl Reason {
    fn of(reason: c::Reason) -> Reason {
        match reason.kind {
            1 => Reason::Base,
            2 => Reason::Ceiling {
                mutex: reason.mutex,
            },
            3 => Reason::Waiter {
                task: reason.task,
                mutex: reason.mutex,
            },
            other => Reason::Other(other),
        }
    }
}

impl Reply {
    fn of(answer: c::Answer) -> Reply {
        match answer.kind {
            1 => Reply::Granted,
            2 => Reply::Queued,
            3 => Reply::Freed,
            4 => Reply::Handed(answer.number),
            5 => Reply::Released(answer.number),
            6 => Reply::Withdrawn,
            7 => Reply::Set,
            8 => Reply::Refused(Refusal::of(answer.refusal)),
            9 => Reply::Kept,
            other => Reply::Other(other),
        }
    }

    // what a change that is no step is answered
    fn done(self) -> Result<(), Refusal> {
        match self {
            Reply::Refused(refusal) => Err(refusal),
            _ => Ok(()),
        }
    }
}

impl Refusal {
    fn of(number: u8) -> Refusal {
        match number {
            1 => Refusal::NoTask,
            2 => Refusal::Waiting,
            3 => Refusal::NoMutex,
            4 => Refusal::Deadlock,
            5 => Refusal::Ceiling,
            6 => Refusal::Busy,
            7 => Refusal::NotOwner,
            8 => Refusal::NotWaiting,
            9 => Refusal::Priority,
            10 => Refusal::Tickets,
            11 => Refusal::NotProtect,
            12 => Refusal::Again,
            13 => Refusal::NoProtocol,
            14 => Refusal::Protect,
            other => Refusal::Other(other),
        }
    }
}

// what isn't 0, for none, nor 65535, for an unknown one
fn known(number: u16) -> Option<u16> {
    (number != 0 && number != u16::MAX).then_some(number)
}
