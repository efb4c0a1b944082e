//! The dining arbiter: which of some tasks may run now, where those in conflict must not run at the same time.
//!
//! [`Broker`] is for threads, and waits. [`Arbiter`] answers at once, and is for one thread at a time. [`run`] and [`audit`] are
//! for test benches: what a script's calls are answered, and whether a journal is legal.
#![deny(unsafe_code)]
#![warn(missing_docs)]

mod broker;
mod oracle;
mod sys;

pub use broker::{Broker, Meal};
pub use oracle::{audit, run, Ended, Print};

use std::{error, fmt};

/// The name of a task. It is never given again.
#[repr(C)]
#[derive(Clone, Copy, Debug, PartialEq, Eq, Hash, PartialOrd, Ord)]
pub struct Task {
    /// The task's seat.
    pub slot: u32,
    /// The clock just before it joined.
    pub born: u64,
}

/// What can be asked.
#[derive(Clone, Copy, Debug, PartialEq, Eq, Hash)]
pub enum Call {
    /// A new task joins, thinking.
    Join,
    /// A thinking task leaves, and its conflicts go with it.
    Leave(Task),
    /// From now on the two tasks never eat at the same time.
    Conflict(Task, Task),
    /// The two tasks may eat at the same time again.
    Separate(Task, Task),
    /// A thinking task wants to eat.
    Hungry(Task),
    /// A hungry task begins to eat.
    Begin(Task),
    /// An eating task thinks again.
    Finish(Task),
    /// A hungry task thinks again, without a meal.
    Withdraw(Task),
}

impl Call {
    // The number of the call in dine.h, and the tasks that it names.
    fn parts(self) -> (u32, Task, Task) {
        let nobody = Task { slot: 0, born: 0 };
        match self {
            Call::Join => (1, nobody, nobody),
            Call::Leave(task) => (2, task, nobody),
            Call::Conflict(first, second) => (3, first, second),
            Call::Separate(first, second) => (4, first, second),
            Call::Hungry(task) => (5, task, nobody),
            Call::Begin(task) => (6, task, nobody),
            Call::Finish(task) => (7, task, nobody),
            Call::Withdraw(task) => (8, task, nobody),
        }
    }
}

/// Why a call was not carried out. Nothing was changed.
#[derive(Clone, Copy, Debug, PartialEq, Eq, Hash)]
pub enum Refused {
    /// As many tasks are present as the limits allow.
    Full,
    /// A named task isn't present.
    Unknown,
    /// Both names are the same.
    Same,
    /// The conflict stands already.
    Already,
    /// There is no such conflict.
    Apart,
    /// Both tasks eat, so it is too late for a conflict between them.
    BothEating,
    /// As many conflicts stand as the limits allow.
    NoRoom,
    /// The task isn't in the state that the call needs.
    WrongState,
    /// A neighbour eats, or a hungry one ate longer ago.
    NotYet,
    /// 2^64 - 1 joins and finishes were accepted.
    ClockEnded,
    /// The limits are out of their ranges.
    OutOfRange,
    /// There is no memory for an arbiter.
    NoMemory,
    /// The library gave a number that this crate doesn't know.
    Other(u32),
}

impl From<u32> for Refused {
    fn from(number: u32) -> Refused {
        match number {
            1 => Refused::Full,
            2 => Refused::Unknown,
            3 => Refused::Same,
            4 => Refused::Already,
            5 => Refused::Apart,
            6 => Refused::BothEating,
            7 => Refused::NoRoom,
            8 => Refused::WrongState,
            9 => Refused::NotYet,
            101 => Refused::ClockEnded,
            102 => Refused::OutOfRange,
            103 => Refused::NoMemory,
            other => Refused::Other(other),
        }
    }
}

impl fmt::Display for Refused {
    fn fmt(&self, f: &mut fmt::Formatter<'_>) -> fmt::Result {
        write!(f, "refused: {self:?}")
    }
}

impl error::Error for Refused {}

/// The state of a task.
#[derive(Clone, Copy, Debug, PartialEq, Eq, Hash)]
pub enum State {
    /// It wants nothing.
    Thinking,
    /// It wants to eat, and waits.
    Hungry,
    /// It works, and none of its neighbours does.
    Eating,
}

/// An arbiter. It can go to another thread, and answers one call at a time.
pub struct Arbiter(sys::Handle);

impl Arbiter {
    /// An arbiter for 1 to 4,096 tasks and 1 to 65,535 conflicts at once.
    pub fn new(tasks: u32, conflicts: u32) -> Result<Arbiter, Refused> {
        Ok(Arbiter(sys::Handle::open(tasks, conflicts)?))
    }

    /// Makes a call. A join that is accepted answers the new task.
    pub fn act(&mut self, call: Call) -> Result<Option<Task>, Refused> {
        let (number, first, second) = call.parts();
        match self.0.act(number, first, second) {
            (0, newcomer) => Ok((call == Call::Join).then_some(newcomer)),
            (answer, _) => Err(answer.into()),
        }
    }

    /// What [`Arbiter::act`] would answer, but for the name of a new task. Nothing is changed.
    pub fn ask(&mut self, call: Call) -> Result<(), Refused> {
        let (number, first, second) = call.parts();
        match self.0.ask(number, first, second) {
            0 => Ok(()),
            answer => Err(answer.into()),
        }
    }

    /// A new task, thinking.
    pub fn join(&mut self) -> Result<Task, Refused> {
        let (number, nobody, _) = Call::Join.parts();
        match self.0.act(number, nobody, nobody) {
            (0, newcomer) => Ok(newcomer),
            (answer, _) => Err(answer.into()),
        }
    }

    /// The state of a task, or `None` where it isn't present.
    pub fn state(&mut self, task: Task) -> Option<State> {
        match self.0.state(task) {
            1 => Some(State::Thinking),
            2 => Some(State::Hungry),
            3 => Some(State::Eating),
            _ => None,
        }
    }

    /// Whether the task is hungry and may begin.
    pub fn is_ready(&mut self, task: Task) -> bool {
        self.0.is_ready(task)
    }

    /// The ready task whose last meal is the earliest.
    pub fn next_ready(&mut self) -> Option<Task> {
        self.0.next_ready()
    }

    /// The tasks that a task is in conflict with, in the order in which the conflicts were declared.
    pub fn neighbours(&mut self, task: Task) -> Result<Vec<Task>, Refused> {
        self.listed(|handle, found| handle.neighbours(task, found))
    }

    /// Those of its neighbours for which a hungry task waits: who eats, and who is hungry with an earlier last meal. There are
    /// none for a task that isn't hungry, or that may begin.
    pub fn blockers(&mut self, task: Task) -> Result<Vec<Task>, Refused> {
        self.listed(|handle, found| handle.blockers(task, found))
    }

    /// All ready tasks, the one with the earliest last meal first.
    pub fn ready(&mut self) -> Result<Vec<Task>, Refused> {
        self.listed(|handle, found| handle.ready(found))
    }

    /// Whether one more conflict has room.
    pub fn has_room(&mut self) -> bool {
        self.0.has_room()
    }

    /// How many joins and finishes were accepted.
    pub fn clock(&mut self) -> u64 {
        self.0.clock()
    }

    /// How many messages between neighbours the last call took.
    pub fn messages(&mut self) -> u32 {
        self.0.messages()
    }

    /// The most tasks and the most conflicts at once.
    pub fn limits(&mut self) -> (u32, u32) {
        self.0.limits()
    }

    /// The tasks that a call writes to a place with room for all, and how many it says there are.
    fn listed(&mut self, list: impl FnOnce(&mut sys::Handle, &mut [Task]) -> (u32, usize)) -> Result<Vec<Task>, Refused> {
        let mut found = vec![Task { slot: 0, born: 0 }; self.limits().0 as usize];
        match list(&mut self.0, &mut found) {
            (0, count) => {
                found.truncate(count);
                Ok(found)
            }
            (answer, _) => Err(answer.into()),
        }
    }
}
