//! Each call once, what is refused, and eight threads that eat by a broker.

use dine::{Arbiter, Broker, Call, Ended, Print, Refused, State, Task};
use std::sync::atomic::{AtomicBool, AtomicU32, Ordering::SeqCst};
use std::time::Duration;

fn is_send<T: Send>() {}
fn is_shared<T: Send + Sync>() {}

#[test]
fn crosses_threads() {
    is_send::<Arbiter>();
    is_shared::<Broker>();
}

#[test]
fn answers_by_its_calls() {
    let mut arbiter = Arbiter::new(3, 1).unwrap();
    let (a, b) = (arbiter.join().unwrap(), arbiter.join().unwrap());
    assert_eq!(arbiter.act(Call::Join), Ok(Some(Task { slot: 2, born: 2 })));
    assert_eq!(arbiter.limits(), (3, 1));
    assert!(arbiter.has_room());
    assert_eq!(arbiter.act(Call::Conflict(a, b)), Ok(None));
    assert!(!arbiter.has_room());
    assert_eq!(arbiter.neighbours(a), Ok(vec![b]));
    assert_eq!(arbiter.neighbours(Task { slot: 7, born: 7 }), Err(Refused::Unknown));
    assert_eq!(arbiter.act(Call::Hungry(b)), Ok(None));
    assert!(arbiter.is_ready(b));
    assert_eq!(arbiter.next_ready(), Some(b));
    assert_eq!(arbiter.ask(Call::Begin(b)), Ok(()));
    assert_eq!(arbiter.act(Call::Begin(b)), Ok(None));
    assert_eq!(arbiter.state(b), Some(State::Eating));
    assert_eq!(arbiter.act(Call::Hungry(a)), Ok(None));
    assert_eq!(arbiter.act(Call::Begin(a)), Err(Refused::NotYet));
    assert_eq!(arbiter.next_ready(), None);
    assert_eq!((arbiter.blockers(a), arbiter.blockers(b)), (Ok(vec![b]), Ok(vec![])));
    assert_eq!(arbiter.blockers(Task { slot: 7, born: 7 }), Err(Refused::Unknown));
    assert_eq!(arbiter.ready(), Ok(vec![]));
    assert_eq!(arbiter.act(Call::Finish(b)), Ok(None));
    assert_eq!(arbiter.clock(), 4);
    assert!(arbiter.messages() <= 1);
    assert_eq!((arbiter.blockers(a), arbiter.ready()), (Ok(vec![]), Ok(vec![a])));
    assert_eq!(arbiter.act(Call::Withdraw(a)), Ok(None));
    assert_eq!(arbiter.act(Call::Separate(b, a)), Ok(None));
    assert_eq!(arbiter.act(Call::Leave(a)), Ok(None));
    assert_eq!(arbiter.state(a), None);
}

#[test]
fn refuses_by_name() {
    for (tasks, conflicts) in [(0, 1), (4097, 1), (1, 0), (1, 65536)] {
        assert_eq!(Arbiter::new(tasks, conflicts).err(), Some(Refused::OutOfRange));
    }
    let mut arbiter = Arbiter::new(1, 1).unwrap();
    let a = arbiter.join().unwrap();
    assert_eq!(arbiter.join(), Err(Refused::Full));
    assert_eq!(arbiter.act(Call::Hungry(Task { slot: 7, born: 7 })), Err(Refused::Unknown));
    assert_eq!(arbiter.act(Call::Conflict(a, a)), Err(Refused::Same));
    assert_eq!(arbiter.act(Call::Finish(a)), Err(Refused::WrongState));
}

#[test]
fn runs_scripts_and_audits_journals() {
    let script = b"join a\njoin b\nconflict a b\nhungry a\nbegin a\nhungry b\nbegin b\n";
    let replies = b"joined 0.0\njoined 1.1\ndone\ndone\ndone\ndone\nrefused not-yet\n".to_vec();
    assert_eq!(dine::run((64, 256), Print::Replies, script), Ok((Ended::Good, replies)));
    let (ended, journal) = dine::run((64, 256), Print::Journal, script).unwrap();
    assert_eq!(ended, Ended::Good);
    assert_eq!(dine::audit(&journal), Ok((Ended::Good, b"legal 7\novertakes 0\n".to_vec())));
    assert_eq!(dine::audit(b""), Ok((Ended::Fault, b"fault header\n".to_vec())));
    assert_eq!(dine::run((0, 1), Print::Replies, b""), Err(Refused::OutOfRange));
    let (_, long) = dine::run((64, 256), Print::Replies, &b"next\n".repeat(20000)).unwrap();
    assert_eq!(long, b"next none\n".repeat(20000));
}

#[test]
fn eight_threads_eat_on_a_ring() {
    const THREADS: usize = 8;
    const MEALS: u32 = 1000;
    let broker = Broker::new(THREADS as u32, THREADS as u32).unwrap();
    let tasks: Vec<Task> = (0..THREADS).map(|_| broker.join().unwrap()).collect();
    for at in 0..THREADS {
        broker.conflict(tasks[at], tasks[(at + 1) % THREADS]).unwrap();
    }
    let eats: [AtomicBool; THREADS] = Default::default();
    let (clashes, eaten) = (AtomicU32::new(0), AtomicU32::new(0));
    std::thread::scope(|scope| {
        for at in 0..THREADS {
            let (broker, tasks, eats, clashes, eaten) = (&broker, &tasks, &eats, &clashes, &eaten);
            scope.spawn(move || {
                for _ in 0..MEALS {
                    let _meal = broker.meal(tasks[at]).unwrap();
                    eats[at].store(true, SeqCst);
                    if eats[(at + 1) % THREADS].load(SeqCst) || eats[(at + THREADS - 1) % THREADS].load(SeqCst) {
                        clashes.fetch_add(1, SeqCst);
                    }
                    eats[at].store(false, SeqCst);
                    eaten.fetch_add(1, SeqCst);
                }
            });
        }
    });
    assert_eq!((clashes.into_inner(), eaten.into_inner()), (0, THREADS as u32 * MEALS));
}

#[test]
fn a_wait_ends_in_time() {
    let broker = Broker::new(2, 1).unwrap();
    let (a, b) = (broker.join().unwrap(), broker.join().unwrap());
    broker.conflict(a, b).unwrap();
    let soon = Duration::from_millis(20);
    let meal = broker.meal(a).unwrap();
    assert!(broker.meal_within(b, soon).unwrap().is_none());
    assert!(broker.meal_within(b, Duration::ZERO).unwrap().is_none());
    assert_eq!(broker.meal_within(a, soon).err(), Some(Refused::WrongState));
    drop(meal);
    assert!(broker.meal_within(b, soon).unwrap().is_some());
    assert!(broker.meal_within(a, Duration::MAX).unwrap().is_some());
}
