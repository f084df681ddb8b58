//! Transactions of two sessions: a deadlock ends one of them, a kill a wait, and a savepoint is rolled back to.

use gaz_locks::{Context, Error, Key, LockDuration, Manager, Mode, Status, Wait};
use std::thread;
use std::time::Duration;

const LONG: Duration = Duration::from_secs(60);
const SHORT: Duration = Duration::from_millis(10);

/// The wait of a session, once it has one.
fn await_wait(manager: &Manager, session: u16) -> Wait {
    loop {
        match manager.wait_of(session) {
            Some(wait) => return wait,
            None => thread::sleep(Duration::from_millis(1)),
        }
    }
}

/// Each waits for what the other has. The victim, of equal weights the one with the greater number, makes way.
fn end_a_deadlock(
    manager: &Manager,
    first: &mut Context,
    second: &mut Context,
) -> Result<(), Error> {
    let (orders, items) = (Key::table("shop", "orders"), Key::table("shop", "items"));
    first.acquire(&orders, Mode::Exclusive, LockDuration::Transaction, LONG)?;
    second.acquire(&items, Mode::Exclusive, LockDuration::Transaction, LONG)?;
    let number = first.number();
    thread::scope(|scope| {
        let waiting = scope
            .spawn(|| first.acquire(&items, Mode::SharedRead, LockDuration::Transaction, LONG));
        await_wait(manager, number);
        match second.acquire(&orders, Mode::SharedRead, LockDuration::Transaction, LONG) {
            Ok(_) => println!("the second session has orders"),
            Err(error) => println!("the second session: {error}"),
        }
        second.end_transaction()?;
        let got = waiting.join().expect("the thread doesn't panic");
        println!("the first one has both tables: {}", got.is_ok());
        Ok(())
    })?;
    first.end_transaction()
}

/// The reader's wait for what the writer has is over after a while. Another one is killed, and the locks are shown before that.
fn lose_waits(manager: &Manager, reader: &mut Context, writer: &mut Context) -> Result<(), Error> {
    let orders = Key::table("shop", "orders");
    writer.acquire(&orders, Mode::Exclusive, LockDuration::Transaction, LONG)?;
    let now = reader.try_acquire(&orders, Mode::SharedRead, LockDuration::Statement)?;
    println!("the reader has it now: {}", now.is_some());
    let late = reader.acquire(&orders, Mode::SharedRead, LockDuration::Statement, SHORT);
    println!("a while later: {}", late.unwrap_err());
    let number = reader.number();
    thread::scope(|scope| {
        let waiting = scope
            .spawn(|| reader.acquire(&orders, Mode::SharedRead, LockDuration::Statement, LONG));
        let wait = await_wait(manager, number);
        for lock in manager.locks()? {
            let waits = lock.status == Status::Pending;
            println!(
                "{}: session {} in {:?}, waits: {waits}",
                lock.key, lock.session, lock.mode
            );
        }
        println!("killed: {}", manager.kill(wait));
        let lost = waiting.join().expect("the thread doesn't panic");
        println!("the reader: {}", lost.unwrap_err());
        println!("killed again: {}", manager.kill(wait));
        Ok(())
    })?;
    println!("waits that are settled: {}", manager.settled().len());
    writer.end_transaction()
}

/// Says which of two tables a session may read.
fn tell(what: &str, context: &Context) -> Result<(), Error> {
    let orders = context.holds(&Key::table("shop", "orders"), Mode::SharedRead)?;
    let items = context.holds(&Key::table("shop", "items"), Mode::SharedRead)?;
    println!("{what}: orders {orders}, items {items}");
    Ok(())
}

/// What was gained since a savepoint is given up, and an explicit lock outlasts its transaction.
fn go_back(context: &mut Context) -> Result<(), Error> {
    let (orders, items) = (Key::table("shop", "orders"), Key::table("shop", "items"));
    context.acquire(&orders, Mode::SharedRead, LockDuration::Transaction, LONG)?;
    let mark = context.savepoint()?;
    context.acquire(&items, Mode::SharedWrite, LockDuration::Transaction, LONG)?;
    tell("after the savepoint", context)?;
    context.rollback_to(mark)?;
    tell("rolled back", context)?;
    let ticket = context.acquire(
        &items,
        Mode::SharedUpgradable,
        LockDuration::Statement,
        LONG,
    )?;
    context.upgrade(ticket, Mode::Exclusive, LONG)?;
    context.downgrade(ticket, Mode::SharedNoWrite)?;
    context.set_duration(ticket, LockDuration::Explicit)?;
    context.end_transaction()?;
    tell("at the end of the transaction", context)?;
    context.release(ticket)?;
    println!("released again: {}", context.release(ticket).unwrap_err());
    println!("the savepoint: {}", context.rollback_to(mark).unwrap_err());
    context.acquire(&orders, Mode::SharedRead, LockDuration::Statement, LONG)?;
    context.make_explicit()?;
    context.end_statement()?;
    tell("with all explicit", context)?;
    context.make_transactional()?;
    context.end_transaction()?;
    tell("with none", context)?;
    context.acquire(
        &Key::user_lock("job"),
        Mode::Exclusive,
        LockDuration::Explicit,
        LONG,
    )?;
    context.release_key(&Key::user_lock("job"))?;
    context.release_explicit()
}

fn run() -> Result<(), Error> {
    let manager = Manager::new(256, 2)?;
    let mut first = manager.session().expect("none is taken").into_context()?;
    let mut second = manager.session().expect("one is left").into_context()?;
    end_a_deadlock(&manager, &mut first, &mut second)?;
    lose_waits(&manager, &mut first, &mut second)?;
    go_back(&mut first)?;
    let schema = Key::schema("shop");
    second.acquire(
        &schema,
        Mode::IntentionExclusive,
        LockDuration::Statement,
        LONG,
    )?;
    second.end_statement()?;
    second.acquire(&Key::Global, Mode::Shared, LockDuration::Explicit, LONG)?;
    drop(second);
    println!("a session is free again: {}", manager.session().is_some());
    println!("locks that are left: {}", manager.locks()?.len());
    let again = first.acquire(
        &Key::Commit,
        Mode::SharedRead,
        LockDuration::Statement,
        LONG,
    );
    println!("a mode that the key doesn't take: {}", again.unwrap_err());
    Ok(())
}

fn main() {
    if let Err(error) = run() {
        eprintln!("{error}");
        std::process::exit(1);
    }
}
