"""Jams of a server: functions that open sessions of a scene so that some of them wait. The first line of each says what an operator would say."""

# A change that runs for some seconds while it holds X of the table.
SLOW_ALTER = "ALTER TABLE {0} ADD COLUMN c CHAR(128) DEFAULT (SHA2(REPEAT(x, 12000000), 512)), ALGORITHM=COPY, LOCK=EXCLUSIVE"

COUNT = "SELECT COUNT(*) FROM {0}"


def made(scene, *tables):
    """Makes tables with 40 rows each."""
    scene.run(*(f"CREATE TABLE {table} (x INT) SELECT seq AS x FROM seq_1_to_40" for table in tables))


def readers(scene, count, table="shop.t"):
    """Adds sessions that wait to read a table."""
    for _ in range(count):
        scene.waiter(COUNT.format(table))


def alter(scene):
    """An ALTER behind a reader, and two readers behind it."""
    made(scene, "shop.t")
    scene.holder("shop.t")
    scene.waiter(SLOW_ALTER.format("shop.t"))
    readers(scene, 2)


def drop(scene):
    """A DROP of two tables behind a reader of each."""
    made(scene, "shop.a", "shop.b")
    scene.holder("shop.a")
    scene.holder("shop.b")
    scene.waiter("DROP TABLE shop.a, shop.b")


def tables(scene):
    """LOCK TABLES, readers of the table, and FLUSH TABLES WITH READ LOCK behind it."""
    made(scene, "shop.t")
    scene.idle("LOCK TABLES shop.t WRITE")
    for _ in range(2):
        scene.waiter("BEGIN; SELECT COUNT(*) FROM shop.t")
    scene.waiter("FLUSH TABLES WITH READ LOCK", user="dump")


def forty(scene):
    """Forty readers behind an ALTER behind three transactions."""
    made(scene, "shop.t")
    for _ in range(3):
        scene.holder("shop.t")
    scene.waiter(SLOW_ALTER.format("shop.t"))
    readers(scene, 40)


def deadlock(scene):
    """All of a deadlock but its last wait: a reader of each of two tables, an ALTER behind each, and one of the readers behind the other ALTER."""
    made(scene, "shop.a", "shop.b")
    first = scene.holder("shop.a")
    scene.holder("shop.b")
    scene.waiter(SLOW_ALTER.format("shop.a"))
    scene.waiter(SLOW_ALTER.format("shop.b"))
    scene.wait(first, COUNT.format("shop.b"))


def names(scene):
    """A table and a schema with a dash and capitals in their names, and a user-level lock."""
    made(scene, "`Shop-1`.`Orders-2`")
    scene.holder("`Shop-1`.`Orders-2`")
    scene.waiter(SLOW_ALTER.format("`Shop-1`.`Orders-2`"))
    scene.idle("DO GET_LOCK('the lock', 0)")
    scene.waiter("SELECT GET_LOCK('the lock', 60)")


def read_lock(scene):
    """FLUSH TABLES WITH READ LOCK, whose session is idle; four INSERTs and a CREATE TABLE wait."""
    made(scene, "shop.t", "shop.u")
    scene.idle("FLUSH TABLES WITH READ LOCK", user="dump")
    for table in ("shop.t", "shop.t", "shop.u", "shop.u"):
        scene.waiter(f"INSERT INTO {table} VALUES (1)")
    scene.waiter("CREATE TABLE shop.v (x INT)", user="admin")


def commits(scene):
    """FLUSH TABLES WITH READ LOCK, whose session is idle; two COMMITs wait."""
    made(scene, "shop.t")
    writers = [scene.transaction("INSERT INTO shop.t VALUES (1)") for _ in range(2)]
    scene.idle("FLUSH TABLES WITH READ LOCK", user="dump")
    for writer in writers:
        scene.wait(writer, "COMMIT")


def backup(scene):
    """A backup in its stage BLOCK_COMMIT; a COMMIT, a CREATE TABLE and an INSERT of MyISAM wait."""
    made(scene, "shop.t")
    scene.run("CREATE TABLE shop.m (x INT) ENGINE=MyISAM")
    writer = scene.transaction("INSERT INTO shop.t VALUES (1)")
    scene.idle("BACKUP STAGE START; BACKUP STAGE FLUSH; BACKUP STAGE BLOCK_DDL; BACKUP STAGE BLOCK_COMMIT", user="dump")
    scene.wait(writer, "COMMIT")
    scene.waiter("CREATE TABLE shop.v (x INT)", user="admin")
    scene.waiter("INSERT INTO shop.m VALUES (1)")


def dump(scene):
    """A dump that has read 300 tables in one transaction, an ALTER of one, and three readers behind it."""
    tables = [f"shop.t{number}" for number in range(300)]
    scene.run(*(f"CREATE TABLE {table} (x INT)" for table in tables))
    scene.holder(*tables, user="dump")
    scene.waiter("ALTER TABLE shop.t7 ADD COLUMN y INT, ALGORITHM=COPY", user="admin")
    readers(scene, 3, "shop.t7")


def rename(scene):
    """A RENAME that swaps a pair of tables, behind two readers, and three readers behind it."""
    made(scene, "shop.orders", "shop.orders_new")
    for _ in range(2):
        scene.holder("shop.orders")
    scene.waiter("RENAME TABLE shop.orders TO shop.orders_old, shop.orders_new TO shop.orders", user="admin")
    readers(scene, 3, "shop.orders")


def row_lock(scene):
    """Uncommitted changes, an UPDATE that waits for one of these rows, an ALTER that copies the table behind both, and two UPDATEs behind it."""
    made(scene, "shop.t")
    scene.transaction("UPDATE shop.t SET x = 0 WHERE x = 1")
    scene.wait_for_row("UPDATE shop.t SET x = 2 WHERE x = 1")
    scene.waiter("ALTER TABLE shop.t ADD COLUMN y INT, ALGORITHM=COPY", user="admin")
    for _ in range(2):
        scene.waiter("UPDATE shop.t SET x = 3 WHERE x = 40")


def unseen(scene):
    """A reader that began while the instrument was off, an ALTER behind it, and two readers behind the ALTER."""
    made(scene, "shop.t")
    scene.instrument("NO")
    reader = scene.holder("shop.t")
    scene.instrument("YES")
    scene.waiter("ALTER TABLE shop.t ADD COLUMN y INT, ALGORITHM=COPY", user="admin")
    readers(scene, 2)
    scene.rescue = f"KILL {reader.connection}"
    scene.unexplained = True


def prepared(scene):
    """A prepared XA transaction whose client is gone, an ALTER that waits for its rows, and two readers behind the ALTER."""
    made(scene, "shop.t")
    client = scene.session()
    client.ask("XA START 'order-17'; UPDATE shop.t SET x = 0; XA END 'order-17'; XA PREPARE 'order-17'; SELECT 'done'")
    client.close()
    scene.sessions.remove(client)
    scene.wait_for_row("ALTER TABLE shop.t ADD COLUMN y INT, ALGORITHM=COPY, LOCK=EXCLUSIVE", user="admin")
    readers(scene, 2)
    scene.rescue = "XA ROLLBACK 'order-17'"


def routine(scene):
    """A DROP of a procedure that a function in an open transaction has called, and three calls behind it."""
    scene.run("CREATE PROCEDURE p() SELECT 1 INTO @one")
    scene.server.run("DELIMITER //\nCREATE FUNCTION shop.f() RETURNS INT BEGIN CALL shop.p(); RETURN 1; END//")
    scene.transaction("DO shop.f()")
    scene.waiter("DROP PROCEDURE shop.p", user="admin")
    for _ in range(3):
        scene.waiter("SELECT shop.f()")


def both(scene):
    """An ALTER behind two readers, and nobody behind it: both of them have to end."""
    made(scene, "shop.t")
    for _ in range(2):
        scene.holder("shop.t")
    scene.waiter("ALTER TABLE shop.t ADD COLUMN y INT, ALGORITHM=COPY", user="admin")


def flush(scene):
    """FLUSH TABLES WITH READ LOCK behind an UPDATE that waits for a row, and three INSERTs behind it."""
    made(scene, "shop.t", "shop.u")
    scene.transaction("UPDATE shop.t SET x = 0 WHERE x = 1")
    scene.wait_for_row("UPDATE shop.t SET x = 2 WHERE x = 1")
    scene.waiter("FLUSH TABLES WITH READ LOCK", user="dump")
    for _ in range(3):
        scene.waiter("INSERT INTO shop.u VALUES (1)")


def schema(scene):
    """A DROP DATABASE behind a reader of one of its tables, and two CREATEs behind it."""
    made(scene, "`Shop-1`.t")
    scene.holder("`Shop-1`.t")
    scene.waiter("DROP DATABASE `Shop-1`", user="admin")
    for number in range(2):
        scene.waiter(f"CREATE TABLE `Shop-1`.u{number} (x INT)")


def exclusive(scene):
    """An ALTER that has the table for itself, which the rows don't show, and three readers behind it."""
    made(scene, "shop.t")
    reader = scene.holder("shop.t")
    scene.waiter(SLOW_ALTER.format("shop.t").replace("12000000", "60000000"), user="admin")
    scene.server.run(f"KILL {reader.connection}")
    readers(scene, 3)


JAMS = {
    jam.__name__: jam
    for jam in (alter, drop, tables, forty, deadlock, names, read_lock, commits, backup, flush, dump, rename, both, row_lock, unseen, prepared, routine, schema,
                exclusive)
}
