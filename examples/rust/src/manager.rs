//! The manager of locks, which threads share.

use crate::raw::{self, Space};
use crate::{Error, Session};
use std::sync::{Condvar, Mutex, MutexGuard, PoisonError};

/// The place of a key in a manager, where it stays while a session pins it. A session pins and can lock the places that it looked up itself,
/// until it unpins them or goes back to the manager.
#[derive(Clone, Copy, Debug, PartialEq, Eq)]
pub struct Place(pub(crate) u16);

/// What is behind the mutex: the manager of the library, which sessions are taken, and room for a list of sessions.
pub(crate) struct Inside {
    pub(crate) space: Space,
    taken: Vec<bool>,
    settled: Vec<u16>,
}

/// A manager of metadata locks. It is `Send` and `Sync`: one mutex is held round each call.
pub struct Manager {
    inside: Mutex<Inside>,
    turns: Vec<Condvar>, // the wait of a session is settled
}

impl Manager {
    /// A manager of 1 to 256 places, for as many keys at a time, and 1 to 1024 sessions.
    pub fn new(places: u16, sessions: u16) -> Result<Manager, Error> {
        let mut space = Space::new();
        // SAFETY: all bytes of the space are 0.
        done(unsafe { raw::gaz_one_open_version(&mut space, raw::VERSION, places, sessions) })?;
        let taken = vec![false; usize::from(sessions)];
        let turns = taken.iter().map(|_| Condvar::new()).collect();
        Ok(Manager {
            inside: Mutex::new(Inside {
                space,
                taken,
                settled: vec![0; usize::from(sessions)],
            }),
            turns,
        })
    }

    /// A session that nobody has, if there is one.
    pub fn session(&self) -> Option<Session<'_>> {
        let mut inside = self.inside();
        let at = inside.taken.iter().position(|is_taken| !is_taken)?;
        inside.taken[at] = true;
        Some(Session::new(self, at as u16 + 1))
    }

    // Takes the mutex. No call leaves anything half done, so it doesn't matter whether a thread panicked that had it.
    pub(crate) fn inside(&self) -> MutexGuard<'_, Inside> {
        self.inside.lock().unwrap_or_else(PoisonError::into_inner)
    }

    // The condition variable of a session.
    pub(crate) fn turn_of(&self, who: u16) -> &Condvar {
        &self.turns[usize::from(who) - 1]
    }

    // Wakes the sessions whose waits are settled.
    pub(crate) fn wake(&self, inside: &mut Inside) {
        for who in inside.settled() {
            self.turn_of(*who).notify_one();
        }
    }

    // A session goes back to those that nobody has. Its context ends, if it has one. It pins nothing then, except where a guard was forgotten.
    pub(crate) fn give_back(&self, who: u16) {
        let mut inside = self.inside();
        let mut places = 0;
        // SAFETY: the mutex is held, here and below.
        unsafe { raw::gaz_one_context_end(&mut inside.space, who) };
        self.wake(&mut inside);
        unsafe { raw::gaz_one_places(&mut inside.space, &mut places) };
        for place in 1..=places as u16 {
            // A place that the session doesn't pin is refused, and nothing changes.
            unsafe { raw::gaz_one_unpin(&mut inside.space, who, place) };
        }
        inside.taken[usize::from(who) - 1] = false;
    }
}

impl Inside {
    // The sessions whose waits are settled and not ended.
    pub(crate) fn settled(&mut self) -> &[u16] {
        let mut count = 0;
        let (room, length) = (self.settled.as_mut_ptr(), self.settled.len());
        // SAFETY: the pointer and the length are those of the room, and the mutex is held, by whoever has what is inside.
        unsafe { raw::gaz_one_settled(&mut self.space, room, length, &mut count) };
        &self.settled[..count]
    }
}

impl Drop for Manager {
    fn drop(&mut self) {
        // SAFETY: there is no session any more, and nobody else makes calls. What the call answers is GAZ_DONE.
        unsafe { raw::gaz_one_close(&mut self.inside().space) };
    }
}

/// Whether a code is `GAZ_DONE`.
pub(crate) fn done(code: u32) -> Result<(), Error> {
    if code == raw::DONE {
        Ok(())
    } else {
        Err(Error::of(code))
    }
}
