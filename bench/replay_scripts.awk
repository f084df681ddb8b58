# Writes a script of statements of LINES lines, in which 64 sessions behave as sessions do over 50 tables: each begins a transaction,
# makes 1 to 10 statements in it and commits, and one that waits does nothing but wait. The same SEED gives the same script.
#
#     awk -v LINES=10000 -v SEED=1 -v CHANGES=100 -v OPEN=64 -f bench/replay_scripts.awk
#
# The first 50 lines create the tables. Of a thousand statements CHANGES change a definition: a table is dropped, or one that was dropped is
# created again, which ends the transaction. Half of the others read and half write. A transaction names its tables in rising order, so that
# there is no deadlock. At most OPEN sessions have a transaction or wait at a time. To know which sessions wait, the generator keeps the locks
# of the tables itself, as plainly as can be.

# The high bits of a linear congruential generator modulo 2^31.
function next_below(bound) {
    state = (state * 1103515245 + 12345) % 2147483648
    return int(state / 65536) % bound
}

function say(session, words) {
    print session, words
    lines++
}

function hold(session, table) {
    holders[table]++
    held[session, ++tables_held[session]] = table
}

# Grants the waits for a table that no session holds: first each waiting change of its definition is made, and then all others hold it.
function grant_waiters(table, at, session, waiters) {
    for (at = first[table]; at <= last[table]; at++) {
        session = queue[table, at]
        if (wish[session] != "use") {
            waits[session] = 0
            change_definition(session, table, wish[session])
        }
    }
    changes_waiting[table] = 0
    for (at = first[table]; at <= last[table]; at++) {
        session = queue[table, at]
        if (wish[session] == "use") {
            waits[session] = 0
            hold(session, table)
        }
        delete queue[table, at]
    }
    first[table] = last[table] + 1
}

function begin_wait(session, table, for_what) {
    queue[table, ++last[table]] = session
    wish[session] = for_what
    waits[session] = 1
}

function end_transaction(session, at, table) {
    for (at = 1; at <= tables_held[session]; at++) {
        table = held[session, at]
        if (--holders[table] == 0) {
            grant_waiters(table)
        }
    }
    tables_held[session] = 0
}

function use(session, table) {
    say(session, (next_below(2) ? "SELECT t" : "INSERT t") table)
    if (changes_waiting[table]) {
        begin_wait(session, table, "use")
    } else {
        hold(session, table)
    }
}

# Creates or drops a table, if that can be done.
function change_definition(session, table, how) {
    if (how == "DROP" && is_there[table]) {
        dropped[++all_dropped] = table
    }
    is_there[table] = (how == "CREATE")
    open--
}

function has(session, table, at) {
    for (at = 1; at <= tables_held[session]; at++) {
        if (held[session, at] == table) {
            return 1
        }
    }
    return 0
}

# Creates a table that was dropped, or drops one if there is none. A session that has the table itself commits instead: otherwise the wait
# would end within the line for those that wait already.
function change(session, table, how) {
    table = all_dropped ? dropped[all_dropped] : 1 + next_below(50)
    how = all_dropped ? "CREATE" : "DROP"
    if (has(session, table)) {
        commit(session)
        return
    }
    all_dropped -= (how == "CREATE")
    say(session, how " TABLE t" table (how == "CREATE" ? " x y" : ""))
    left[session] = 0
    end_transaction(session)
    if (holders[table]) {
        changes_waiting[table]++
        begin_wait(session, table, how)
    } else {
        change_definition(session, table, how)
    }
}

function commit(session) {
    say(session, "COMMIT")
    left[session] = 0
    open--
    end_transaction(session)
}

function begin(session, statements) {
    say(session, "BEGIN")
    statements = 1 + next_below(10)
    left[session] = statements + 1
    table_before[session] = next_below(51 - 4 * statements)
    open++
}

# Plays a turn of a session that doesn't wait.
function live(session) {
    if (!left[session]) {
        if (open < OPEN) {
            begin(session)
        }
    } else if (--left[session] == 0) {
        commit(session)
    } else if (next_below(1000) < CHANGES) {
        change(session)
    } else {
        table_before[session] += 1 + next_below(4)
        use(session, table_before[session])
    }
}

BEGIN {
    state = SEED
    for (table = 1; table <= 50; table++) {
        say(1, "CREATE TABLE t" table " x y")
        is_there[table] = 1
        first[table] = 1
    }
    while (lines < LINES) {
        session = 1 + next_below(64)
        if (!waits[session]) {
            live(session)
        }
    }
}
