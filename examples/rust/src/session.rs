//! Sessions, which wait for locks, and the guards of those that they have.

use crate::manager::{done, Inside};
use crate::raw;
use crate::{Error, Manager, Mode, Place};
use std::cell::Cell;
use std::marker::PhantomData;
use std::sync::{MutexGuard, PoisonError};
use std::time::{Duration, Instant};

/// A session of a manager. It may go to another thread while it has no guards, and is used by one thread at a time.
///
/// A guard that is forgotten (`std::mem::forget`) leaves its lock with the session, whoever takes that next.
pub struct Session<'m> {
    pub(crate) manager: &'m Manager,
    pub(crate) who: u16,
    not_shared: PhantomData<Cell<()>>, // `Send`, but not `Sync`
}

impl<'m> Session<'m> {
    pub(crate) fn new(manager: &'m Manager, who: u16) -> Session<'m> {
        Session {
            manager,
            who,
            not_shared: PhantomData,
        }
    }

    /// The session's number, from 1 on.
    pub fn number(&self) -> u16 {
        self.who
    }

    /// The place of a table's key, which the session then pins.
    pub fn table(&self, schema: &str, table: &str) -> Result<Place, Error> {
        let mut place = 0;
        // SAFETY: the pointers and lengths are those of two `&str`, and the mutex is held.
        done(unsafe {
            raw::gaz_one_table(
                &mut self.manager.inside().space,
                self.who,
                schema.as_ptr(),
                schema.len(),
                table.as_ptr(),
                table.len(),
                &mut place,
            )
        })?;
        Ok(Place(place))
    }

    /// The place of a schema's key, which the session then pins.
    pub fn schema(&self, schema: &str) -> Result<Place, Error> {
        let mut place = 0;
        // SAFETY: the pointer and the length are those of a `&str`, and the mutex is held.
        done(unsafe {
            raw::gaz_one_schema(
                &mut self.manager.inside().space,
                self.who,
                schema.as_ptr(),
                schema.len(),
                &mut place,
            )
        })?;
        Ok(Place(place))
    }

    /// The place of a user-level lock's key, which the session then pins.
    pub fn user_lock(&self, name: &str) -> Result<Place, Error> {
        let mut place = 0;
        // SAFETY: the pointer and the length are those of a `&str`, and the mutex is held.
        done(unsafe {
            raw::gaz_one_user_lock(
                &mut self.manager.inside().space,
                self.who,
                name.as_ptr(),
                name.len(),
                &mut place,
            )
        })?;
        Ok(Place(place))
    }

    /// The place of the key of the global read lock.
    pub fn global(&self) -> Result<Place, Error> {
        let mut place = 0;
        // SAFETY: the mutex is held.
        done(unsafe {
            raw::gaz_one_global(&mut self.manager.inside().space, self.who, &mut place)
        })?;
        Ok(Place(place))
    }

    /// The place of the key that commits take.
    pub fn commit(&self) -> Result<Place, Error> {
        let mut place = 0;
        // SAFETY: the mutex is held.
        done(unsafe {
            raw::gaz_one_commit(&mut self.manager.inside().space, self.who, &mut place)
        })?;
        Ok(Place(place))
    }

    /// Gives up the session's pin of a place, which another key may then get. The session must have no lock there.
    pub fn unpin(&self, place: Place) -> Result<(), Error> {
        // SAFETY: the mutex is held.
        done(unsafe { raw::gaz_one_unpin(&mut self.manager.inside().space, self.who, place.0) })
    }

    /// The lock, if it can be had now.
    pub fn try_lock(&self, place: Place, mode: Mode) -> Result<Option<Guard<'_>>, Error> {
        let mut ticket = 0;
        // SAFETY: the mutex is held.
        match unsafe {
            raw::gaz_one_try(
                &mut self.manager.inside().space,
                self.who,
                place.0,
                mode as u8,
                &mut ticket,
            )
        } {
            raw::WOULD_WAIT => Ok(None),
            code => done(code).map(|()| Some(self.guard(ticket))),
        }
    }

    /// The lock, for which the thread waits for so long. Whoever begins to wait looks for the deadlocks that this makes.
    pub fn lock(&self, place: Place, mode: Mode, patience: Duration) -> Result<Guard<'_>, Error> {
        let mut inside = self.manager.inside();
        let mut ticket = 0;
        // SAFETY: the mutex is held.
        match unsafe {
            raw::gaz_one_begin(
                &mut inside.space,
                self.who,
                place.0,
                mode as u8,
                &mut ticket,
            )
        } {
            raw::WAITING => self.finish(inside, patience),
            code => done(code).map(|()| self.guard(ticket)),
        }
    }

    // Waits until the wait is settled, and ends it.
    fn finish<'s>(
        &'s self,
        mut inside: MutexGuard<'_, Inside>,
        patience: Duration,
    ) -> Result<Guard<'s>, Error> {
        let searched = self.end_deadlocks(&mut inside);
        inside = self.sleep(inside, patience);
        let mut ticket = 0;
        // SAFETY: the mutex is held.
        let code = unsafe { raw::gaz_one_end(&mut inside.space, self.who, &mut ticket) };
        self.manager.wake(&mut inside); // the end of a lost wait makes way
        match (searched, code) {
            (Err(error), raw::TIMEOUT) => Err(error),
            _ => done(code).map(|()| self.guard(ticket)),
        }
    }

    // Sleeps until the wait is settled, by a timeout if it lasts for so long.
    pub(crate) fn sleep<'g>(
        &self,
        mut inside: MutexGuard<'g, Inside>,
        patience: Duration,
    ) -> MutexGuard<'g, Inside> {
        let begun = Instant::now();
        // SAFETY: the mutex is held, here and below.
        while unsafe { raw::gaz_one_poll(&mut inside.space, self.who) } == raw::WAITING {
            let left = patience.saturating_sub(begun.elapsed());
            if left.is_zero() {
                unsafe { raw::gaz_one_time_out(&mut inside.space, self.who) };
            } else {
                let turn = self.manager.turn_of(self.who);
                inside = turn
                    .wait_timeout(inside, left)
                    .unwrap_or_else(PoisonError::into_inner)
                    .0;
            }
        }
        inside
    }

    // Searches until there is no deadlock, or the session itself is a victim. The victims have to learn of it. If memory runs out, a deadlock may be
    // left: the wait is given up.
    fn end_deadlocks(&self, inside: &mut Inside) -> Result<(), Error> {
        let mut victim = 0;
        let searched = loop {
            // SAFETY: the mutex is held, here and below.
            match unsafe { raw::gaz_one_search(&mut inside.space, self.who, &mut victim) } {
                raw::VICTIM if victim != self.who => {}
                raw::VICTIM => break Ok(()),
                code => break done(code),
            }
        };
        if searched.is_err() {
            unsafe { raw::gaz_one_time_out(&mut inside.space, self.who) };
        }
        self.manager.wake(inside);
        searched
    }

    fn guard(&self, ticket: u64) -> Guard<'_> {
        Guard {
            session: self,
            ticket,
        }
    }
}

impl Drop for Session<'_> {
    fn drop(&mut self) {
        self.manager.give_back(self.who);
    }
}

/// A lock that a session has. It is given up when the guard is dropped.
#[must_use = "the lock is given up when the guard is dropped"]
pub struct Guard<'s> {
    session: &'s Session<'s>,
    ticket: u64,
}

impl Guard<'_> {
    /// A stronger mode, if it can be had now.
    pub fn upgrade(&mut self, mode: Mode) -> Result<bool, Error> {
        let Session { manager, who, .. } = *self.session;
        let mut inside = manager.inside();
        // SAFETY: the mutex is held.
        match unsafe { raw::gaz_one_upgrade(&mut inside.space, who, self.ticket, mode as u8) } {
            raw::WOULD_WAIT => Ok(false),
            code => done(code).map(|()| true),
        }
    }

    /// A weaker mode.
    pub fn downgrade(&mut self, mode: Mode) -> Result<(), Error> {
        let Session { manager, who, .. } = *self.session;
        let mut inside = manager.inside();
        // SAFETY: the mutex is held.
        let code =
            unsafe { raw::gaz_one_downgrade(&mut inside.space, who, self.ticket, mode as u8) };
        manager.wake(&mut inside);
        done(code)
    }
}

impl Drop for Guard<'_> {
    fn drop(&mut self) {
        let Session { manager, who, .. } = *self.session;
        let mut inside = manager.inside();
        // SAFETY: the mutex is held. What the call answers is GAZ_DONE, since the session has the ticket.
        unsafe { raw::gaz_one_release(&mut inside.space, who, self.ticket) };
        manager.wake(&mut inside);
    }
}
