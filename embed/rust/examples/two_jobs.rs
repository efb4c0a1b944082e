//! Two jobs that must not run at the same time, each in a thread that waits for its turn.

use dine::{Broker, Refused};

fn main() -> Result<(), Refused> {
    let broker = Broker::new(64, 256)?;
    let jobs = [broker.join()?, broker.join()?];
    broker.conflict(jobs[0], jobs[1])?;
    std::thread::scope(|scope| {
        for job in jobs {
            let broker = &broker;
            scope.spawn(move || {
                let _meal = broker.meal(job);
                println!("a job runs alone");
            });
        }
    });
    Ok(())
}
