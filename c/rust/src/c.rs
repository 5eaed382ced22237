//! pim.h, as Rust sees it.

use std::ffi::c_void;
use std::ptr::null_mut;

#[repr(C)]
pub struct Handle {
    at: *mut c_void,
}

impl Handle {
    pub const EMPTY: Handle = Handle { at: null_mut() };
}

#[repr(C)]
#[derive(Clone, Copy)]
pub struct Protocol {
    pub kind: u16,
    pub ceiling: u16,
}

#[repr(C)]
#[derive(Clone, Copy)]
pub struct Answer {
    pub kind: u8,
    pub refusal: u8,
    pub number: u16,
    pub visits: u16,
    pub changed: u16,
}

#[repr(C)]
#[derive(Clone, Copy, Default)]
pub struct Reason {
    pub kind: u16,
    pub task: u16,
    pub mutex: u16,
}

#[repr(C)]
#[derive(Clone, Copy, Default)]
pub struct ChangedTask {
    pub task: u16,
    pub prio: u16,
    pub reason: Reason,
}

#[repr(C)]
#[derive(Clone, Copy, Default)]
pub struct ChangedPrio {
    pub task: u16,
    pub prio: u16,
}

#[repr(C)]
#[derive(Clone, Copy, Default)]
pub struct Handed {
    pub mutex: u16,
    pub task: u16,
}

extern "C" {
    pub fn pim_make(
        h: &mut Handle,
        bases: *const u16,
        tasks: usize,
        protocols: *const Protocol,
        mutexes: usize,
    ) -> u32;
    pub fn pim_drop(h: &mut Handle);
    pub fn pim_lock(h: &mut Handle, task: u16, mutex: u16) -> Answer;
    pub fn pim_try(h: &mut Handle, task: u16, mutex: u16) -> Answer;
    pub fn pim_unlock(h: &mut Handle, task: u16, mutex: u16) -> Answer;
    pub fn pim_release_all(h: &mut Handle, task: u16) -> Answer;
    pub fn pim_cancel(h: &mut Handle, task: u16, target: u16) -> Answer;
    pub fn pim_set_base(h: &mut Handle, task: u16, target: u16, prio: u16) -> Answer;
    pub fn pim_set_ceiling(h: &mut Handle, task: u16, mutex: u16, ceiling: u16) -> Answer;
    pub fn pim_set_protocol(h: &mut Handle, mutex: u16, kind: u16, ceiling: u16) -> Answer;
    pub fn pim_adopt(h: &mut Handle, task: u16, mutex: u16) -> Answer;
    pub fn pim_changed(h: &Handle, to: *mut ChangedTask, room: usize) -> usize;
    pub fn pim_changed_prios(h: &Handle, to: *mut ChangedPrio, room: usize) -> usize;
    pub fn pim_handed(h: &Handle, to: *mut Handed, room: usize) -> usize;
    pub fn pim_task_count(h: &Handle) -> u16;
    pub fn pim_effective_prio(h: &Handle, task: u16) -> u16;
    pub fn pim_owner(h: &Handle, mutex: u16) -> u16;
    pub fn pim_lock_count(h: &Handle, mutex: u16) -> u16;
    pub fn pim_waits_for(h: &Handle, task: u16) -> u16;
}
