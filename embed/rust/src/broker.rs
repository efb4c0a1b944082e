//! An arbiter that threads share.

use crate::{Arbiter, Call, Refused, Task};
use std::sync::{Condvar, Mutex, MutexGuard, PoisonError};
use std::time::{Duration, Instant};

/// An arbiter that threads share. A [`Broker::meal`] waits for the task's turn.
pub struct Broker {
    arbiter: Mutex<Arbiter>,
    turned: Condvar,
}

/// A meal in progress: the task eats as long as this lives.
#[must_use = "the meal ends where this is dropped"]
pub struct Meal<'a> {
    broker: &'a Broker,
    task: Task,
}

impl Broker {
    /// A broker for 1 to 4,096 tasks and 1 to 65,535 conflicts at once.
    pub fn new(tasks: u32, conflicts: u32) -> Result<Broker, Refused> {
        Ok(Broker { arbiter: Mutex::new(Arbiter::new(tasks, conflicts)?), turned: Condvar::new() })
    }

    /// A new task, thinking.
    pub fn join(&self) -> Result<Task, Refused> {
        self.arbiter().join()
    }

    /// A thinking task leaves.
    pub fn leave(&self, task: Task) -> Result<(), Refused> {
        self.change(Call::Leave(task))
    }

    /// From now on the two never eat at the same time.
    pub fn conflict(&self, first: Task, second: Task) -> Result<(), Refused> {
        self.change(Call::Conflict(first, second))
    }

    /// The two may eat at the same time again.
    pub fn separate(&self, first: Task, second: Task) -> Result<(), Refused> {
        self.change(Call::Separate(first, second))
    }

    /// Waits until the thinking task may eat.
    pub fn meal(&self, task: Task) -> Result<Meal<'_>, Refused> {
        let mut arbiter = self.arbiter();
        arbiter.act(Call::Hungry(task))?;
        loop {
            match arbiter.act(Call::Begin(task)) {
                Ok(_) => return Ok(Meal { broker: self, task }),
                Err(Refused::NotYet) => {
                    arbiter = self.turned.wait(arbiter).unwrap_or_else(PoisonError::into_inner);
                }
                Err(refused) => return Err(refused),
            }
        }
    }

    /// Waits until the thinking task may eat, for so long at most. `None` if its turn didn't come: then it thinks again.
    pub fn meal_within(&self, task: Task, limit: Duration) -> Result<Option<Meal<'_>>, Refused> {
        let start = Instant::now();
        let mut arbiter = self.arbiter();
        arbiter.act(Call::Hungry(task))?;
        loop {
            match arbiter.act(Call::Begin(task)) {
                Ok(_) => return Ok(Some(Meal { broker: self, task })),
                Err(Refused::NotYet) => {}
                Err(refused) => return Err(refused),
            }
            let left = limit.saturating_sub(start.elapsed());
            if left.is_zero() {
                let withdrawn = arbiter.act(Call::Withdraw(task));
                self.turned.notify_all();
                return withdrawn.map(|_| None);
            }
            arbiter = self.turned.wait_timeout(arbiter, left).unwrap_or_else(PoisonError::into_inner).0;
        }
    }

    // Makes a call after which others may have their turn.
    fn change(&self, call: Call) -> Result<(), Refused> {
        let answer = self.arbiter().act(call);
        self.turned.notify_all();
        answer.map(|_| ())
    }

    // The arbiter is whole even where a thread panicked under the lock, since no call of it does.
    fn arbiter(&self) -> MutexGuard<'_, Arbiter> {
        self.arbiter.lock().unwrap_or_else(PoisonError::into_inner)
    }
}

impl Drop for Meal<'_> {
    fn drop(&mut self) {
        // A refusal would say that the task doesn't eat, and then there is nothing to finish.
        let _ = self.broker.change(Call::Finish(self.task));
    }
}
