//! The library's own calls, and a handle that is always open: the only `unsafe` code of this crate.
//!
//! A `Handle` is made open and closed where it is dropped, and each call is by `&mut`. So the handle is open and one call at
//! a time is on it, and references are live and apart: that is what dine.h leaves to its caller.
#![allow(unsafe_code)]

use crate::Task;
use std::ffi::c_void;
use std::ptr;

/// `dine` of dine.h.
#[repr(C)]
struct Raw {
    address: *mut c_void,
}

extern "C" {
    fn dine_open(tasks: u32, conflicts: u32, dine: *mut Raw) -> u32;
    fn dine_act(dine: *mut Raw, call: u32, first: *const Task, second: *const Task, newcomer: *mut Task) -> u32;
    fn dine_ask(dine: *mut Raw, call: u32, first: *const Task, second: *const Task) -> u32;
    fn dine_state(dine: *mut Raw, task: *const Task) -> u32;
    fn dine_is_ready(dine: *mut Raw, task: *const Task) -> bool;
    fn dine_next_ready(dine: *mut Raw, next: *mut Task) -> bool;
    fn dine_neighbours(dine: *mut Raw, task: *const Task, found: *mut Task, room: usize, count: *mut usize) -> u32;
    fn dine_blockers(dine: *mut Raw, task: *const Task, found: *mut Task, room: usize, count: *mut usize) -> u32;
    fn dine_ready(dine: *mut Raw, found: *mut Task, room: usize, count: *mut usize) -> u32;
    fn dine_has_room(dine: *mut Raw) -> bool;
    fn dine_clock(dine: *mut Raw) -> u64;
    fn dine_messages(dine: *mut Raw) -> u32;
    fn dine_limits(dine: *mut Raw, tasks: *mut u32, conflicts: *mut u32);
    fn dine_close(dine: *mut Raw);
    fn dine_run(
        tasks: u32,
        conflicts: u32,
        journal: bool,
        script: *const u8,
        script_length: usize,
        out: *mut u8,
        out_length: usize,
        written: *mut usize,
    ) -> u32;
    fn dine_audit(journal: *const u8, journal_length: usize, out: *mut u8, out_length: usize, written: *mut usize) -> u32;
}

/// The number of the answer; what is written goes to `out`, and the length of the output comes back.
pub(crate) fn run(limits: (u32, u32), journal: bool, script: &[u8], out: &mut [u8]) -> (u32, usize) {
    let mut written = 0;
    let (script, size) = (script.as_ptr(), script.len());
    // SAFETY: a slice's pointer is never null, and these are apart.
    let answer = unsafe {
        dine_run(limits.0, limits.1, journal, script, size, out.as_mut_ptr(), out.len(), &mut written)
    };
    (answer, written)
}

/// The number of the answer; what is written goes to `out`, and the length of the output comes back.
pub(crate) fn audit(journal: &[u8], out: &mut [u8]) -> (u32, usize) {
    let mut written = 0;
    let (journal, size) = (journal.as_ptr(), journal.len());
    // SAFETY: as at `run`.
    let answer = unsafe { dine_audit(journal, size, out.as_mut_ptr(), out.len(), &mut written) };
    (answer, written)
}

/// An open handle.
pub(crate) struct Handle(Raw);

// SAFETY: the library has no thread's own data and nothing that two handles share.
unsafe impl Send for Handle {}

impl Handle {
    /// An open handle, or the number of the answer.
    pub(crate) fn open(tasks: u32, conflicts: u32) -> Result<Handle, u32> {
        let mut raw = Raw { address: ptr::null_mut() };
        // SAFETY: the handle is closed.
        match unsafe { dine_open(tasks, conflicts, &mut raw) } {
            0 => Ok(Handle(raw)),
            answer => Err(answer),
        }
    }

    /// The number of the answer, and the task that joined, if one did.
    pub(crate) fn act(&mut self, call: u32, first: Task, second: Task) -> (u32, Task) {
        let mut newcomer = Task { slot: 0, born: 0 };
        // SAFETY: the handle is open, here and below.
        let answer = unsafe { dine_act(&mut self.0, call, &first, &second, &mut newcomer) };
        (answer, newcomer)
    }

    pub(crate) fn ask(&mut self, call: u32, first: Task, second: Task) -> u32 {
        unsafe { dine_ask(&mut self.0, call, &first, &second) }
    }

    pub(crate) fn state(&mut self, task: Task) -> u32 {
        unsafe { dine_state(&mut self.0, &task) }
    }

    pub(crate) fn is_ready(&mut self, task: Task) -> bool {
        unsafe { dine_is_ready(&mut self.0, &task) }
    }

    pub(crate) fn next_ready(&mut self) -> Option<Task> {
        let mut next = Task { slot: 0, born: 0 };
        unsafe { dine_next_ready(&mut self.0, &mut next) }.then_some(next)
    }

    /// The number of the answer, and how many there are.
    pub(crate) fn neighbours(&mut self, task: Task, found: &mut [Task]) -> (u32, usize) {
        let mut count = 0;
        let answer = unsafe { dine_neighbours(&mut self.0, &task, found.as_mut_ptr(), found.len(), &mut count) };
        (answer, count)
    }

    /// The number of the answer, and how many there are.
    pub(crate) fn blockers(&mut self, task: Task, found: &mut [Task]) -> (u32, usize) {
        let mut count = 0;
        let answer = unsafe { dine_blockers(&mut self.0, &task, found.as_mut_ptr(), found.len(), &mut count) };
        (answer, count)
    }

    /// The number of the answer, and how many there are.
    pub(crate) fn ready(&mut self, found: &mut [Task]) -> (u32, usize) {
        let mut count = 0;
        let answer = unsafe { dine_ready(&mut self.0, found.as_mut_ptr(), found.len(), &mut count) };
        (answer, count)
    }

    pub(crate) fn has_room(&mut self) -> bool {
        unsafe { dine_has_room(&mut self.0) }
    }

    pub(crate) fn clock(&mut self) -> u64 {
        unsafe { dine_clock(&mut self.0) }
    }

    pub(crate) fn messages(&mut self) -> u32 {
        unsafe { dine_messages(&mut self.0) }
    }

    pub(crate) fn limits(&mut self) -> (u32, u32) {
        let (mut tasks, mut conflicts) = (0, 0);
        unsafe { dine_limits(&mut self.0, &mut tasks, &mut conflicts) };
        (tasks, conflicts)
    }
}

impl Drop for Handle {
    fn drop(&mut self) {
        // SAFETY: the handle is open, and nobody has it any more.
        unsafe { dine_close(&mut self.0) }
    }
}
