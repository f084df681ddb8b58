# Writes a lock script of LINES lines, in which 64 sessions behave as sessions do: one that holds the lock releases it before it asks
# again, and one that waits does nothing but wait, or time out. The same SEED gives the same script.
#
#     awk -v LINES=10000 -v SEED=1 -v WRITERS=5 -f bench/lock_scripts.awk
#     awk -v LINES=10000 -v LIFE=passing -f bench/lock_scripts.awk
#
# By default a session that has nothing asks at its turn, and one that holds the lock releases it. Of a thousand requests 450 are for
# SR, 350 for SW, 50 for SH, 50 for SWLP, 15 for SU, 10 for SRO, 5 for SNW, 5 for SNRW, WRITERS for X, and the others for S. One of four
# turns of a session that waits is a TIMEOUT. The others are left out. To know which sessions wait, the generator keeps the lock itself,
# as plainly as can be. With LIFE=passing all sessions ask for X. The session that holds it releases it, which grants it to the next one,
# and asks again.

# The high bits of a linear congruential generator modulo 2^31.
function next_below(bound) {
    state = (state * 1103515245 + 12345) % 2147483648
    return int(state / 65536) % bound
}

function next_wish(wish, mode) {
    wish = next_below(1000)
    for (mode = 1; mode <= shares; mode++) {
        if (wish < share[mode]) {
            return wished[mode]
        }
        wish -= share[mode]
    }
    return "S"
}

# Whether a requested mode clashes with nothing that others hold, and is behind nothing that others wait for. A session that asks has neither.
function is_grantable(wish, own, mode) {
    for (mode in clashes_with) {
        if (granted[mode] > 0 && index(clashes_with[wish], " " mode " ")) {
            return 0
        }
        if (waiting[mode] - (own == mode) > 0 && index(waits_behind[wish], " " mode " ")) {
            return 0
        }
    }
    return 1
}

function ask(session, wish) {
    print session, wish
    mode_of[session] = wish
    if (is_grantable(wish, "")) {
        holds[session] = 1
        granted[wish]++
    } else {
        waits[session] = 1
        waiting[wish]++
        queue[++last] = session
    }
}

function leave_queue(session, at) {
    for (at = first; queue[at] != session; at++) { }
    for (; at < last; at++) {
        queue[at] = queue[at + 1]
    }
    delete queue[last--]
    waits[session] = 0
    waiting[mode_of[session]]--
}

function grant_waiters(at, session) {
    for (at = first; at <= last; at++) {
        session = queue[at]
        if (is_grantable(mode_of[session], mode_of[session])) {
            leave_queue(session)
            holds[session] = 1
            granted[mode_of[session]]++
            at = first - 1
        }
    }
}

function release(session) {
    print session, "RELEASE"
    holds[session] = 0
    granted[mode_of[session]]--
    grant_waiters()
}

function time_out(session) {
    print session, "TIMEOUT"
    leave_queue(session)
    grant_waiters()
}

# Plays a turn of a session. Returns whether it wrote a line.
function lives(session) {
    if (holds[session]) {
        release(session)
    } else if (!waits[session]) {
        ask(session, next_wish())
    } else if (next_below(4)) {
        return 0
    } else {
        time_out(session)
    }
    return 1
}

function pass_on(lines, line, session) {
    for (line = 1; line <= lines && line <= 64; line++) {
        print line, "X"
    }
    for (session = 1; line <= lines; line++) {
        print session, (line % 2) ? "RELEASE" : "X"
        session = (line % 2) ? session : session % 64 + 1
    }
}

BEGIN {
    state = SEED
    first = 1
    shares = split("SR SW SH SWLP SU SRO SNW SNRW X", wished)
    split("450 350 50 50 15 10 5 5 " WRITERS, share)
    clashes_with["S"] = clashes_with["SH"] = " X "
    clashes_with["SR"] = " SNRW X "
    clashes_with["SW"] = clashes_with["SWLP"] = " SRO SNW SNRW X "
    clashes_with["SU"] = " SU SNW SNRW X "
    clashes_with["SRO"] = " SW SWLP SNRW X "
    clashes_with["SNW"] = " SW SWLP SU SNW SNRW X "
    clashes_with["SNRW"] = " SR SW SWLP SU SRO SNW SNRW X "
    clashes_with["X"] = " S SH SR SW SWLP SU SRO SNW SNRW X "
    waits_behind["S"] = waits_behind["SU"] = waits_behind["SNW"] = waits_behind["SNRW"] = " X "
    waits_behind["SH"] = waits_behind["X"] = " "
    waits_behind["SR"] = " SNRW X "
    waits_behind["SW"] = " SNW SNRW X "
    waits_behind["SWLP"] = " SRO SNW SNRW X "
    waits_behind["SRO"] = " SW SNRW X "
    if (LIFE == "passing") {
        pass_on(LINES)
    } else {
        for (line = 1; line <= LINES; line += lives(1 + next_below(64))) { }
    }
}
