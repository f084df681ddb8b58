//! Contexts, which keep a session's locks as a server's transactions need them.

use crate::key::Words;
use crate::manager::{done, Inside};
use crate::raw::{self, Space};
use crate::{Error, Key, LockDuration, Mode, Session};
use std::sync::MutexGuard;
use std::time::Duration;

/// A session whose locks are kept by their durations. It gives all of them up when it is dropped.
pub struct Context<'m> {
    session: Session<'m>,
}

/// A lock that a context keeps, by its number.
#[derive(Clone, Copy, Debug, PartialEq, Eq)]
pub struct Ticket(u64);

/// A point in a session's work, to which its context can roll back: how many locks it keeps then.
#[derive(Clone, Copy)]
pub struct Mark(raw::Mark);

impl<'m> Session<'m> {
    /// Begins a context for the session, which may pin no place. If it does, it isn't there any more: another one can be taken.
    pub fn into_context(self) -> Result<Context<'m>, Error> {
        // SAFETY: the mutex is held.
        done(unsafe { raw::gaz_one_context_begin(&mut self.manager.inside().space, self.who) })?;
        Ok(Context { session: self })
    }
}

impl Context<'_> {
    /// The session's number, from 1 on.
    pub fn number(&self) -> u16 {
        self.session.who
    }

    /// A lock for this duration, for which the thread waits for so long. Whoever begins to wait looks for the deadlocks that this makes. A lost wait
    /// leaves the other locks: after [`Error::Deadlock`] the transaction has to end.
    pub fn acquire(
        &mut self,
        key: &Key,
        mode: Mode,
        duration: LockDuration,
        patience: Duration,
    ) -> Result<Ticket, Error> {
        let (mut number, words) = (0, key.words());
        let mut inside = self.session.manager.inside();
        // SAFETY: the pointers and lengths are those of two `&str`, and the mutex is held.
        let code = unsafe {
            raw::gaz_one_acquire(
                &mut inside.space,
                self.session.who,
                words.namespace,
                words.schema.as_ptr(),
                words.schema.len(),
                words.table.as_ptr(),
                words.table.len(),
                mode as u8,
                duration as u8,
                &mut number,
            )
        };
        self.finish(inside, code, number, patience)
    }

    /// A lock for this duration, if it can be had now.
    pub fn try_acquire(
        &mut self,
        key: &Key,
        mode: Mode,
        duration: LockDuration,
    ) -> Result<Option<Ticket>, Error> {
        let (mut ticket, words) = (0, key.words());
        // SAFETY: the pointers and lengths are those of two `&str`, and the mutex is held.
        match unsafe {
            raw::gaz_one_try_acquire(
                &mut self.session.manager.inside().space,
                self.session.who,
                words.namespace,
                words.schema.as_ptr(),
                words.schema.len(),
                words.table.as_ptr(),
                words.table.len(),
                mode as u8,
                duration as u8,
                &mut ticket,
            )
        } {
            raw::WOULD_WAIT => Ok(None),
            code => done(code).map(|()| Some(Ticket(ticket))),
        }
    }

    /// Whether the context keeps a lock of the key in a mode at least as strong.
    pub fn holds(&self, key: &Key, mode: Mode) -> Result<bool, Error> {
        let words = key.words();
        // SAFETY: the pointers and lengths are those of two `&str`, and the mutex is held.
        match unsafe {
            raw::gaz_one_holds(
                &mut self.session.manager.inside().space,
                self.session.who,
                words.namespace,
                words.schema.as_ptr(),
                words.schema.len(),
                words.table.as_ptr(),
                words.table.len(),
                mode as u8,
            )
        } {
            raw::NOT_KEPT => Ok(false),
            code => done(code).map(|()| true),
        }
    }

    /// A stronger mode for a lock, for which the thread waits as for a new one.
    pub fn upgrade(&mut self, ticket: Ticket, mode: Mode, patience: Duration) -> Result<(), Error> {
        let (mut inside, mut number) = (self.session.manager.inside(), 0);
        let (who, mode) = (self.session.who, mode as u8);
        // SAFETY: the mutex is held.
        let code = unsafe {
            raw::gaz_one_context_upgrade(&mut inside.space, who, ticket.0, mode, &mut number)
        };
        self.finish(inside, code, number, patience).map(|_| ())
    }

    /// A weaker mode for a lock.
    pub fn downgrade(&mut self, ticket: Ticket, mode: Mode) -> Result<(), Error> {
        // SAFETY: the mutex is held.
        self.call(|space, who| unsafe {
            raw::gaz_one_context_downgrade(space, who, ticket.0, mode as u8)
        })
    }

    /// Gives up one lock.
    pub fn release(&mut self, ticket: Ticket) -> Result<(), Error> {
        // SAFETY: the mutex is held.
        self.call(|space, who| unsafe { raw::gaz_one_context_release(space, who, ticket.0) })
    }

    /// Gives up all locks of a key.
    pub fn release_key(&mut self, key: &Key) -> Result<(), Error> {
        let Words {
            namespace,
            schema,
            table,
        } = key.words();
        // SAFETY: the pointers and lengths are those of two `&str`, and the mutex is held.
        self.call(|space, who| unsafe {
            raw::gaz_one_release_name(
                space,
                who,
                namespace,
                schema.as_ptr(),
                schema.len(),
                table.as_ptr(),
                table.len(),
            )
        })
    }

    /// Keeps a lock for this duration from now on.
    pub fn set_duration(&mut self, ticket: Ticket, duration: LockDuration) -> Result<(), Error> {
        // SAFETY: the mutex is held.
        self.call(|space, who| unsafe {
            raw::gaz_one_set_duration(space, who, ticket.0, duration as u8)
        })
    }

    /// Makes all locks explicit.
    pub fn make_explicit(&mut self) -> Result<(), Error> {
        // SAFETY: the mutex is held.
        self.call(|space, who| unsafe { raw::gaz_one_make_explicit(space, who) })
    }

    /// Keeps the explicit locks, except user-level ones, until the transaction ends.
    pub fn make_transactional(&mut self) -> Result<(), Error> {
        // SAFETY: the mutex is held.
        self.call(|space, who| unsafe { raw::gaz_one_make_transactional(space, who) })
    }

    /// A mark of how many locks the context keeps now.
    pub fn savepoint(&self) -> Result<Mark, Error> {
        let mut mark = raw::Mark::default();
        // SAFETY: the mutex is held.
        self.call(|space, who| unsafe { raw::gaz_one_savepoint(space, who, &mut mark) })?;
        Ok(Mark(mark))
    }

    /// Gives up what was gained since a mark. Explicit locks stay.
    pub fn rollback_to(&mut self, mark: Mark) -> Result<(), Error> {
        // SAFETY: the mutex is held.
        self.call(|space, who| unsafe { raw::gaz_one_rollback_to(space, who, mark.0) })
    }

    /// Gives up the locks of the statement.
    pub fn end_statement(&mut self) -> Result<(), Error> {
        // SAFETY: the mutex is held.
        self.call(|space, who| unsafe { raw::gaz_one_end_statement(space, who) })
    }

    /// Gives up the locks of the statement and of the transaction.
    pub fn end_transaction(&mut self) -> Result<(), Error> {
        // SAFETY: the mutex is held.
        self.call(|space, who| unsafe { raw::gaz_one_end_transaction(space, who) })
    }

    /// Gives up the explicit locks.
    pub fn release_explicit(&mut self) -> Result<(), Error> {
        // SAFETY: the mutex is held.
        self.call(|space, who| unsafe { raw::gaz_one_release_explicit(space, who) })
    }

    // Makes a call under the mutex, and wakes the sessions whose waits it settled.
    fn call(&self, made: impl FnOnce(&mut Space, u16) -> u32) -> Result<(), Error> {
        let mut inside = self.session.manager.inside();
        let code = made(&mut inside.space, self.session.who);
        self.session.manager.wake(&mut inside);
        done(code)
    }

    // What becomes of a request, whose call returned this code. The call has searched for deadlocks: their victims are woken, also if memory ran out,
    // for which it is refused.
    fn finish(
        &self,
        mut inside: MutexGuard<'_, Inside>,
        code: u32,
        mut ticket: u64,
        patience: Duration,
    ) -> Result<Ticket, Error> {
        let Session { manager, who, .. } = self.session;
        manager.wake(&mut inside);
        let mut ended = code;
        if code == raw::WAITING {
            inside = self.session.sleep(inside, patience);
            // SAFETY: the mutex is held.
            ended = unsafe { raw::gaz_one_resume(&mut inside.space, who, &mut ticket) };
            manager.wake(&mut inside); // the end of a lost wait makes way
        }
        done(ended).map(|()| Ticket(ticket))
    }
}
