//! What a lock is on.

use std::borrow::Cow;
use std::fmt;

/// What a lock is on.
#[derive(Clone, Debug, PartialEq, Eq)]
pub enum Key<'n> {
    /// The global read lock.
    Global,
    /// A schema, by its name.
    Schema(Cow<'n, str>),
    /// A table, by its schema's name and its own.
    Table(Cow<'n, str>, Cow<'n, str>),
    /// What commits take.
    Commit,
    /// A user-level lock, by its name.
    UserLock(Cow<'n, str>),
}

/// A key as C gets it: the number of its namespace, and its names, which may be empty.
pub(crate) struct Words<'k> {
    pub(crate) namespace: u8,
    pub(crate) schema: &'k str,
    pub(crate) table: &'k str,
}

impl<'n> Key<'n> {
    /// The key of a schema.
    pub fn schema(name: &'n str) -> Key<'n> {
        Key::Schema(Cow::Borrowed(name))
    }

    /// The key of a table.
    pub fn table(schema: &'n str, table: &'n str) -> Key<'n> {
        Key::Table(Cow::Borrowed(schema), Cow::Borrowed(table))
    }

    /// The key of a user-level lock.
    pub fn user_lock(name: &'n str) -> Key<'n> {
        Key::UserLock(Cow::Borrowed(name))
    }

    pub(crate) fn words(&self) -> Words<'_> {
        let (namespace, schema, table) = match self {
            Key::Global => (0, "", ""),
            Key::Schema(name) => (1, name.as_ref(), ""),
            Key::Table(schema, table) => (2, schema.as_ref(), table.as_ref()),
            Key::Commit => (3, "", ""),
            Key::UserLock(name) => (4, name.as_ref(), ""),
        };
        Words {
            namespace,
            schema,
            table,
        }
    }

    // The key of these words, as C tells it.
    pub(crate) fn told(namespace: u8, schema: &[u8], table: &[u8]) -> Key<'static> {
        let text = |bytes| Cow::Owned(String::from_utf8_lossy(bytes).into_owned());
        match namespace {
            0 => Key::Global,
            1 => Key::Schema(text(schema)),
            2 => Key::Table(text(schema), text(table)),
            3 => Key::Commit,
            _ => Key::UserLock(text(schema)),
        }
    }
}

impl fmt::Display for Key<'_> {
    fn fmt(&self, f: &mut fmt::Formatter<'_>) -> fmt::Result {
        match self {
            Key::Global => f.write_str("GLOBAL"),
            Key::Schema(name) => write!(f, "SCHEMA {name}"),
            Key::Table(schema, table) => write!(f, "TABLE {schema} {table}"),
            Key::Commit => f.write_str("COMMIT"),
            Key::UserLock(name) => write!(f, "USER {name}"),
        }
    }
}
