//! What there is: the locks of all sessions, and their waits, which any thread may end.

use crate::manager::{done, Inside};
use crate::raw;
use crate::{Error, Key, LockDuration, Manager, Mode};

// The most bytes of a name.
const LONGEST_NAME: usize = 255;

/// A lock that a session has or waits for.
#[derive(Clone, Debug, PartialEq, Eq)]
pub struct Lock {
    pub key: Key<'static>,
    /// The session's number.
    pub session: u16,
    /// The ticket's number.
    pub ticket: u64,
    pub mode: Mode,
    pub status: Status,
    /// How long a context keeps it, if one does.
    pub duration: Option<LockDuration>,
}

/// Whether a session has a lock, or waits for it.
#[derive(Clone, Copy, Debug, PartialEq, Eq)]
pub enum Status {
    Granted,
    Pending,
    /// The wait is lost, and not ended yet.
    Lost,
}

/// A wait of a session.
#[derive(Clone, Copy, Debug, PartialEq, Eq)]
pub struct Wait {
    session: u16,
    number: u64,
}

impl Manager {
    /// The wait that a session of this number has, if any.
    pub fn wait_of(&self, session: u16) -> Option<Wait> {
        let mut number = 0;
        // SAFETY: the mutex is held.
        match unsafe { raw::gaz_one_wait_of(&mut self.inside().space, session, &mut number) } {
            raw::DONE => Some(Wait { session, number }),
            _ => None,
        }
    }

    /// Ends a wait, and returns whether it did. If it was over or settled before, this is false: a later wait of the session isn't hit.
    pub fn kill(&self, wait: Wait) -> bool {
        let mut inside = self.inside();
        // SAFETY: the mutex is held.
        let code = unsafe { raw::gaz_one_kill(&mut inside.space, wait.session, wait.number) };
        self.wake(&mut inside);
        code == raw::DONE
    }

    /// The sessions whose waits are settled and not ended: they are about to wake up.
    pub fn settled(&self) -> Vec<u16> {
        self.inside().settled().to_vec()
    }

    /// The locks of all keys, as they are at one moment: key by key, first those that sessions have, then those that they wait for.
    pub fn locks(&self) -> Result<Vec<Lock>, Error> {
        let mut inside = self.inside();
        let (mut places, mut locks) = (0, Vec::new());
        // SAFETY: the mutex is held.
        done(unsafe { raw::gaz_one_places(&mut inside.space, &mut places) })?;
        for place in 1..=places as u16 {
            let key = inside.key_of(place)?;
            locks.extend(inside.rows_of(place)?.iter().map(|row| told(&key, row)));
        }
        Ok(locks)
    }
}

impl Inside {
    // The key of a place.
    fn key_of(&mut self, place: u16) -> Result<Key<'static>, Error> {
        let (mut namespace, mut schema, mut table) = (0, [0; LONGEST_NAME], [0; LONGEST_NAME]);
        let (mut schema_length, mut table_length) = (0, 0);
        // SAFETY: the pointers and lengths are those of two arrays, and the mutex is held.
        done(unsafe {
            raw::gaz_one_key_of(
                &mut self.space,
                place,
                &mut namespace,
                schema.as_mut_ptr(),
                schema.len(),
                &mut schema_length,
                table.as_mut_ptr(),
                table.len(),
                &mut table_length,
            )
        })?;
        let (schema, table) = (&schema[..schema_length], &table[..table_length]);
        Ok(Key::told(namespace, schema, table))
    }

    // The tickets of a place.
    fn rows_of(&mut self, place: u16) -> Result<Vec<raw::Lock>, Error> {
        let mut rows = vec![raw::Lock::default(); 16];
        loop {
            let (room, mut count) = (rows.len(), 0);
            // SAFETY: the pointer and the length are those of the room, and the mutex is held.
            done(unsafe {
                raw::gaz_one_locks(&mut self.space, place, rows.as_mut_ptr(), room, &mut count)
            })?;
            rows.resize(count, raw::Lock::default());
            if count <= room {
                return Ok(rows);
            }
        }
    }
}

// A row of a place's list, with the key.
fn told(key: &Key<'static>, row: &raw::Lock) -> Lock {
    Lock {
        key: key.clone(),
        session: row.session,
        ticket: row.ticket,
        mode: Mode::ALL[usize::from(row.mode)],
        status: match row.status {
            0 => Status::Granted,
            1 => Status::Pending,
            _ => Status::Lost,
        },
        duration: LockDuration::ALL.get(usize::from(row.duration)).copied(),
    }
}
