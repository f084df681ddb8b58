"""The modes of a server's metadata locks, and which of them clash or wait behind which: MySQL 5.7, and MariaDB's lock of backups (both sql/mdl.cc).

The matrices of the lock of backups are those that MariaDB 10.11's arrays give, in the order of its modes: the rows are what is asked for, the
columns what others have, and `-` is a conflict.
"""

# The modes in their order, by the server's names.
MODES = {
    "IX": "INTENTION_EXCLUSIVE", "S": "SHARED", "SH": "SHARED_HIGH_PRIO", "SR": "SHARED_READ", "SW": "SHARED_WRITE", "SWLP": "SHARED_WRITE_LOW_PRIO",
    "SU": "SHARED_UPGRADABLE", "SRO": "SHARED_READ_ONLY", "SNW": "SHARED_NO_WRITE", "SNRW": "SHARED_NO_READ_WRITE", "X": "EXCLUSIVE",
}
OBJECT_MODES = [mode for mode in MODES if mode != "IX"]
SCOPED_MODES = ["IX", "S", "X"]
BACKUP_MODES = ["BACKUP_" + mode for mode in (
    "START", "FLUSH", "WAIT_FLUSH", "WAIT_DDL", "WAIT_COMMIT", "FTWRL1", "FTWRL2",
    "DML", "TRANS_DML", "SYS_DML", "DDL", "BLOCK_DDL", "ALTER_COPY", "COMMIT",
)]
OF_MODE = {"scoped": SCOPED_MODES, "object": OBJECT_MODES, "backup": BACKUP_MODES}

# The kinds of locks, by OBJECT_TYPE.
KINDS = {
    **dict.fromkeys(("GLOBAL", "SCHEMA", "COMMIT", "TABLESPACE", "BACKUP LOCK"), "scoped"),
    **dict.fromkeys(("TABLE", "USER LEVEL LOCK", "FUNCTION", "PROCEDURE", "TRIGGER", "EVENT", "LOCKING SERVICE", "PACKAGE BODY"), "object"),
    "BACKUP": "backup",
}

# With which granted modes a requested mode clashes, and behind which waiting ones it waits.
GRANTED = {
    "S": "X", "SH": "X", "SR": "SNRW X", "SW": "SRO SNW SNRW X", "SWLP": "SRO SNW SNRW X", "SU": "SU SNW SNRW X", "SRO": "SW SWLP SNRW X",
    "SNW": "SW SWLP SU SNW SNRW X", "SNRW": "SR SW SWLP SU SRO SNW SNRW X", "X": " ".join(OBJECT_MODES),
}
WAITING = {
    "S": "X", "SH": "", "SR": "SNRW X", "SW": "SNW SNRW X", "SWLP": "SRO SNW SNRW X", "SU": "X", "SRO": "SW SNRW X", "SNW": "X", "SNRW": "X", "X": "",
}
SCOPED_GRANTED = {"IX": "S X", "S": "IX X", "X": "IX S X"}
SCOPED_WAITING = {"IX": "S X", "S": "X", "X": ""}
BACKUP_GRANTED = """
    - - - - - + + + + + + - + +
    - + + + + + + + + + + + + +
    - + + + + + + - + + + + + +
    - + + + + + + - + + - + + +
    - + + + + + + - + - - + + -
    + + + + + + + - - - - + - +
    + + + + + + + - - - - + - -
    + - - - - - - + + + + + + +
    + + + + + - - + + + + + + +
    + + + + - - - + + + + + + +
    + + + - - - - + + + + - + +
    - - - - - + + + + + - - + +
    + + + + + - - + + + + + + +
    + + + + - + - + + + + + + +
"""
BACKUP_WAITING = """
    + - - - - + + + + + + - + +
    + + + + + + + + + + + + + +
    + + + + + + + + + + + + + +
    + + + + + + + + + + + + + +
    + + + + + + + + + + + + + +
    + + + + + + + + + + + + + +
    + + + + + + + + + + + + + +
    + - - - - - - + + + + + + +
    + + + + + - - + + + + + + +
    + + + + - - - + + + + + + +
    + + + - - - - + + + + - + +
    - + + + + + + + + + + + + +
    + + + + + - - + + + + + + +
    + + + + - + - + + + + + + +
"""

# The modes that a granted ticket may have by now, if this one is in its row.
LATER = {
    "SU": ["SNW", "X"], "SNW": ["X"], "SNRW": ["X"], "BACKUP_FTWRL1": ["BACKUP_FTWRL2"],
    "BACKUP_BLOCK_DDL": ["BACKUP_START", "BACKUP_FLUSH", "BACKUP_WAIT_FLUSH", "BACKUP_WAIT_DDL", "BACKUP_WAIT_COMMIT"],
}


def pairs_of(matrix):
    """Returns the pairs of an asked and another mode that a matrix of words has."""
    return {(asked, other) for asked, others in matrix.items() for other in others.split()}


def pairs_of_signs(matrix):
    """Returns the pairs of an asked and another mode where a matrix of signs has a conflict."""
    lines = [line.split() for line in matrix.strip().splitlines()]
    return {(asked, other) for asked, signs in zip(BACKUP_MODES, lines) for other, sign in zip(BACKUP_MODES, signs) if sign == "-"}


CLASHES = {"scoped": pairs_of(SCOPED_GRANTED), "object": pairs_of(GRANTED), "backup": pairs_of_signs(BACKUP_GRANTED)}
QUEUES = {"scoped": pairs_of(SCOPED_WAITING), "object": pairs_of(WAITING), "backup": pairs_of_signs(BACKUP_WAITING)}


def mode_named(object_type, lock_type):
    """Returns the mode of a LOCK_TYPE at an OBJECT_TYPE, or None. MariaDB has no name for SRO."""
    kind = KINDS.get(object_type)
    name = lock_type.removeprefix("MDL_")
    if kind == "backup":
        return name if name in BACKUP_MODES else None
    mode = next((mode for mode, its_name in MODES.items() if its_name == name), None) if lock_type else "SRO"
    return mode if kind and mode in OF_MODE[kind] else None
