# Writes a script of at least LINES lines with all forms of statements except those of user-level locks: one short situation after another, each of up
# to three of 64 sessions over 50 tables. Each leaves no session in a transaction and nothing locked. The same SEED gives the same script.
#
#     awk -v LINES=10000 -v SEED=1 -f bench/all_forms.awk

# The high bits of a linear congruential generator modulo 2^31.
function next_below(bound) {
    state = (state * 1103515245 + 12345) % 2147483648
    return int(state / 65536) % bound
}

function say(session, words) {
    print session, words
    lines++
}

# Three sessions, and three tables, no two the same.
function draw() {
    a = 1 + next_below(64)
    b = 1 + a % 64
    c = 1 + b % 64
    at = next_below(50)
    t = "t" at
    u = "t" (at + 1) % 50
    v = "t" (at + 2) % 50
}

function transaction() {
    say(a, "START TRANSACTION")
    say(a, "SELECT " t " " u " " v)
    say(a, "INSERT " t)
    say(a, "SAVEPOINT p")
    say(a, "UPDATE LOW_PRIORITY " u)
    say(a, "ROLLBACK TO p")
    say(a, "DELETE " t)
    say(a, "COMMIT")
}

function single_statements() {
    say(a, "SELECT " t)
    say(b, "DELETE " u)
    say(c, "UPDATE " v)
}

# An ALTER waits for a reader, and another reader for the ALTER.
function alter() {
    say(a, "BEGIN")
    say(a, "SELECT " t)
    say(b, "ALTER TABLE " t " ADD z COPY")
    say(c, "SELECT " t)
    say(a, "COMMIT")
    say(b, "ALTER TABLE " t " DROP z INPLACE")
}

function rename() {
    say(a, "RENAME TABLE " t " TO renamed")
    say(a, "RENAME TABLE renamed TO " t)
}

function schema() {
    say(a, "CREATE SCHEMA s")
    say(a, "CREATE TABLE s.t x")
    say(b, "BEGIN")
    say(b, "SELECT s.t")
    say(a, "DROP SCHEMA s")
    say(b, "ROLLBACK")
}

function locked_tables() {
    say(a, "LOCK TABLES " t " READ " u " WRITE")
    say(a, "SELECT " t " " u)
    say(a, "INSERT " u)
    say(b, "INSERT " t)
    say(a, "UNLOCK TABLES")
}

function read_lock() {
    say(a, "BEGIN")
    say(a, "INSERT " t)
    say(b, "FLUSH TABLES WITH READ LOCK")
    say(a, "COMMIT")
    say(c, "SELECT " t)
    say(b, "UNLOCK TABLES")
}

# A drop is killed, and one times out.
function lost_waits() {
    say(a, "BEGIN")
    say(a, "SELECT " t)
    say(b, "DROP TABLE " t)
    say(c, "KILL QUERY " b)
    say(b, "DROP TABLE " t " " u)
    say(b, "TIMEOUT")
    say(a, "COMMIT")
}

function deadlock() {
    say(a, "BEGIN")
    say(a, "SELECT " t)
    say(b, "DROP TABLE " t)
    say(a, "INSERT " t)
    say(b, "CREATE TABLE " t " x y")
}

BEGIN {
    state = SEED
    for (table = 0; table < 50; table++) {
        say(1, "CREATE TABLE t" table " x y")
    }
    while (lines < LINES) {
        draw()
        situation = next_below(9)
        if (situation == 0) transaction()
        else if (situation == 1) single_statements()
        else if (situation == 2) alter()
        else if (situation == 3) rename()
        else if (situation == 4) schema()
        else if (situation == 5) locked_tables()
        else if (situation == 6) read_lock()
        else if (situation == 7) lost_waits()
        else deadlock()
    }
}
