//! A scheduler's tick: of some jobs that must not run together, which start now, at most two at once?

use dine::{Arbiter, Call, Refused, Task};

/// Starts each job that may run now, as long as fewer than `most` run.
fn tick(arbiter: &mut Arbiter, running: &mut Vec<Task>, most: usize) -> Result<(), Refused> {
    while running.len() < most {
        let Some(job) = arbiter.next_ready() else { break };
        arbiter.act(Call::Begin(job))?;
        running.push(job);
    }
    Ok(())
}

fn main() -> Result<(), Refused> {
    let names = ["scan", "fax", "copy", "print"];
    let mut left = [2; 4];
    let mut arbiter = Arbiter::new(4, 1)?;
    let jobs = names.iter().map(|_| arbiter.join()).collect::<Result<Vec<_>, _>>()?;
    arbiter.act(Call::Conflict(jobs[0], jobs[1]))?;
    for &job in &jobs {
        arbiter.act(Call::Hungry(job))?;
    }

    let mut running = Vec::new();
    for number in 1.. {
        tick(&mut arbiter, &mut running, 2)?;
        if running.is_empty() {
            break;
        }
        print!("tick {number}:");
        // Here each job ends before the next tick.
        for job in running.drain(..) {
            let at = job.slot as usize;
            print!(" {}", names[at]);
            arbiter.act(Call::Finish(job))?;
            left[at] -= 1;
            if left[at] > 0 {
                arbiter.act(Call::Hungry(job))?;
            }
        }
        println!();
    }
    Ok(())
}
