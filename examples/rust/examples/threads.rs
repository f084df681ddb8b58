//! Threads lock two tables in either order. A deadlock ends one of them, which begins again.

use gaz_locks::{Error, Guard, Manager, Mode, Place, Session};
use std::sync::atomic::{AtomicU64, Ordering::Relaxed};
use std::thread;
use std::time::Duration;

const THREADS: u16 = 4;
const ROUNDS: u64 = 2000;
const LONG: Duration = Duration::from_secs(60);

/// Both tables, in an order that depends on the round.
fn lock_both<'s>(
    session: &'s Session,
    tables: [Place; 2],
    round: u64,
) -> Result<(Guard<'s>, Guard<'s>), Error> {
    let turn = (u64::from(session.number()) + round) as usize % 2;
    let first = session.lock(tables[turn], Mode::SharedNoReadWrite, LONG)?;
    let second = session.lock(tables[1 - turn], Mode::Exclusive, LONG)?;
    Ok((first, second))
}

/// The places of both tables, which the session may then lock.
fn look_up(session: &Session) -> Result<[Place; 2], Error> {
    Ok([
        session.table("shop", "orders")?,
        session.table("shop", "items")?,
    ])
}

/// What a thread does: it counts each round under both locks. Returns whether each lost wait was one to end a deadlock.
fn count(session: &Session, counter: &AtomicU64) -> bool {
    let Ok(tables) = look_up(session) else {
        return false;
    };
    for round in 0..ROUNDS {
        loop {
            match lock_both(session, tables, round) {
                // Two threads here at a time would lose a count.
                Ok(_both) => break counter.store(counter.load(Relaxed) + 1, Relaxed),
                Err(Error::Deadlock) => {}
                Err(_) => return false,
            }
        }
    }
    true
}

fn run() -> Result<(), Error> {
    let manager = Manager::new(256, THREADS)?;
    let counter = AtomicU64::new(0);
    let sessions: Vec<Session> = (0..THREADS).filter_map(|_| manager.session()).collect();
    println!("all sessions are taken: {}", manager.session().is_none());
    let all_well = thread::scope(|scope| {
        let counter = &counter;
        let threads: Vec<_> = sessions
            .into_iter()
            .map(|session| scope.spawn(move || count(&session, counter)))
            .collect();
        threads
            .into_iter()
            .all(|thread| thread.join().unwrap_or(false))
    });
    println!("each thread has done its rounds: {all_well}");
    println!("counted: {}", counter.into_inner());

    let (changer, reader) = (manager.session().unwrap(), manager.session().unwrap());
    let orders = changer.table("shop", "orders")?;
    let change = changer.lock(orders, Mode::Exclusive, LONG)?;
    let orders = reader.table("shop", "orders")?;
    println!(
        "a reader can have it now: {}",
        reader.try_lock(orders, Mode::SharedRead)?.is_some()
    );
    match reader.lock(orders, Mode::SharedRead, Duration::from_millis(10)) {
        Ok(_) => println!("it got the lock"),
        Err(error) => println!("a while later: {error}"),
    }
    println!(
        "its place is in use: {}",
        changer.unpin(orders) == Err(Error::InUse)
    );
    drop(change);
    println!(
        "after the change: {}",
        reader.try_lock(orders, Mode::SharedRead)?.is_some()
    );
    reader.unpin(orders)?;
    if let Err(error) = reader.try_lock(orders, Mode::SharedRead) {
        println!("without its place: {error}");
    }
    println!(
        "a table without a name: {}",
        reader.table("shop", "").unwrap_err()
    );
    Ok(())
}

fn main() {
    if let Err(error) = run() {
        eprintln!("{error}");
        std::process::exit(1);
    }
}
