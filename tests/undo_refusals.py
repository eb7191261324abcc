"""What servers do, and what happens to their logs, that `binlog undo` refuses, each with its reason.

Statements run between two insertions, in logs of their own. What undoes these logs is refused, and with `--skip` it takes back the
insertions alone. Logs of other statements are cut or damaged, chosen by a position, or have different descriptions.
"""

from typing import NamedTuple

import listing_model
import maria_daemon
from maria_daemon import LeftOut
from undone_servers import WITHOUT_GTIDS, Undo, events_of

# A transaction may change tables that can roll back, and `solid`, which can't. A statement on that one has 4 KiB in the log at most.
OPTIONS = ["--binlog-checksum=CRC32", "--binlog-stmt-cache-size=4096", "--max-binlog-stmt-cache-size=4096"]
# What is refused changes `changed`, unless it is said otherwise.
TABLES = """
CREATE TABLE kept (id INT AUTO_INCREMENT PRIMARY KEY, a INT) ENGINE=InnoDB;
CREATE TABLE changed (id INT AUTO_INCREMENT PRIMARY KEY, b VARCHAR(100), j JSON) ENGINE=InnoDB;
CREATE TABLE solid (id INT AUTO_INCREMENT PRIMARY KEY, b VARCHAR(100)) ENGINE=MyISAM;
CREATE TABLE bare (a INT DEFAULT 5) ENGINE=InnoDB;
INSERT INTO solid (b) VALUES ('first');
"""
KEPT = "INSERT INTO kept (a) VALUES (1);"
ROWS = "INSERT INTO changed (b, j) VALUES ('x', JSON_OBJECT('a', 1, 'long', REPEAT('y', 500))), ('y', NULL);"

# ---- What servers do


class Scene(NamedTuple):
    """What a server does that can't be undone, why, and the table that it changes."""

    reason: str
    statements: str
    table: str = "changed"


def by_statement(text):
    return f"SET SESSION binlog_format = 'STATEMENT'; {text} SET SESSION binlog_format = 'ROW';"


# Rows of a statement that has too many for its log, in a table that can't roll back.
MANY = "INSERT INTO solid (b) WITH RECURSIVE n AS (SELECT 1 i UNION ALL SELECT i + 1 FROM n WHERE i < 500) SELECT REPEAT('x', 100) FROM n;"
SCENES = [
    Scene("Statement", "TRUNCATE changed;"),
    Scene("Statement", "ALTER TABLE changed ADD COLUMN more INT; ALTER TABLE changed DROP COLUMN more;"),
    Scene("Statement", by_statement("INSERT INTO changed (b) VALUES ('by a statement');")),
    Scene("Image", "SET SESSION binlog_row_image = 'MINIMAL'; DELETE FROM changed; SET SESSION binlog_row_image = 'FULL';"),
    Scene("Xa", f"XA START 'x'; {ROWS} XA END 'x'; XA PREPARE 'x'; XA COMMIT 'x';"),
]
# The last one, since it leaves rows behind.
INCIDENT = Scene("Incident", MANY, "solid")
# What is rolled back is in MariaDB's log if a temporary table was made, or a change stays.
MARIA = [
    Scene("Rollback", f"START TRANSACTION; {ROWS} CREATE TEMPORARY TABLE scratch (a INT); ROLLBACK; DROP TEMPORARY TABLE scratch;"),
    Scene("Rollback", f"START TRANSACTION; {ROWS} SAVEPOINT here; {ROWS} INSERT INTO solid (b) VALUES ('x'); ROLLBACK TO here; COMMIT;"),
]
# MySQL logs a row of no columns, which has no bytes.
MYSQL = [
    Scene("Image", "SET SESSION binlog_row_image = 'MINIMAL'; INSERT INTO bare () VALUES (); SET SESSION binlog_row_image = 'FULL';", "bare"),
    Scene(
        "PartialJson",
        "SET SESSION binlog_row_value_options = 'PARTIAL_JSON'; UPDATE changed SET j = JSON_SET(j, '$.a', 2);"
        "SET SESSION binlog_row_value_options = '';",
    ),
]


def staged(undo, statements):
    """The tables before statements and behind them, and the logs that these are in. Some may fail."""
    server = undo.server
    server.run(f"USE s; {ROWS} FLUSH BINARY LOGS;".encode())
    before, count = undo.tables(), len(server.logs()) - 1
    undo.kind.force(server, f"USE s; {statements} FLUSH BINARY LOGS;".encode())
    return before, undo.tables(), server.logs()[count:-1]


def refused(undo, scene):
    """What is wrong with what is said of a scene, if something is."""
    before, behind, logs = staged(undo, f"{KEPT} {scene.statements} {KEPT}")
    return undo.refuses(scene.reason, [], logs) or undo.skips(scene.reason, logs, {**before, scene.table: behind[scene.table]})


def rolled_back(undo):
    """What is wrong with what is said of statements of which some are rolled back, if something is. MySQL logs no such rows."""
    statements = f"START TRANSACTION; {ROWS} SAVEPOINT here; {ROWS} INSERT INTO solid (b) VALUES ('x'); ROLLBACK TO here; COMMIT;"
    before, behind, logs = staged(undo, f"{KEPT} {by_statement(statements)} {KEPT}")
    wanted = {**before, "changed": behind["changed"], "solid": behind["solid"]}
    skipped = ["--skip", "Statement"]
    return undo.refuses("Rollback", skipped, logs) or undo.brings([*skipped, "--skip", "Rollback"], logs, wanted)


# ---- What happens to logs


def cut(undo):
    """What is wrong with what is said of a log that ends within a transaction, within an event, or is damaged, if something is."""
    before, behind, (log,) = staged(undo, f"{KEPT} START TRANSACTION; {ROWS} {ROWS} COMMIT;")
    content, copy = log.read_bytes(), undo.folder / "copy"
    commit, rows = last_event(log, [16]), last_event(log, [23, 30])
    for reason, changed in (
        ("Tail", content[: commit + listing_model.HEADER_LENGTH]),
        ("Tail", content[: commit + 1]),
        ("Damaged", content[: commit - 1] + bytes([content[commit - 1] ^ 1]) + content[commit:]),
        ("Damaged", content[: rows + 40] + bytes([content[rows + 40] ^ 128]) + content[rows + 41 :]),
        ("Unfinished", content[:rows]),
        ("Unfinished", content[:commit]),
    ):
        copy.write_bytes(changed)
        wrong = undo.refuses(reason, [], [copy])
        if wrong:
            return wrong
    return undo.skips("Unfinished", [copy], {**before, "changed": behind["changed"]})


def last_event(log, kinds):
    """Where the last event of these types begins."""
    return [place for kind, place, _ in events_of(log) if kind in kinds][-1]


def straddled(undo):
    """What is wrong with what is said of positions within a transaction, if something is."""
    before, _, (log,) = staged(undo, f"{KEPT} START TRANSACTION; {ROWS} {ROWS} COMMIT;")
    within = str(last_event(log, [23, 30]))
    return (
        undo.refuses("Straddles", ["--start-position", within], [log])
        or undo.refuses("Straddles", ["--stop-position", within], [log])
        or undo.brings([], [log], before)
    )


def redescribed(undo):
    """What is wrong with what is said of logs with checksums and without, if something is. They can't be undone by one transaction."""
    before, _, logs = staged(undo, f"{KEPT} SET GLOBAL binlog_checksum = NONE; {KEPT} SET GLOBAL binlog_checksum = CRC32; {KEPT}")
    return undo.refuses("Description", ["--one-transaction"], logs) or undo.brings([], logs, before)


# ---- MariaDB's own

OLD = """
SET GLOBAL mysql56_temporal_format = OFF;
CREATE TABLE old (id INT AUTO_INCREMENT PRIMARY KEY, d DATETIME, t TIME, s TIMESTAMP NULL) ENGINE=InnoDB;
SET GLOBAL mysql56_temporal_format = ON;
"""
OLD_ROWS = "INSERT INTO old (d, t, s) VALUES ('2024-01-02 03:04:05', '-06:07:08', '2024-01-02 03:04:05'); UPDATE old SET t = '09:10:11';"


def outdated(undo):
    """What is wrong with what is said of columns of an old form, if something is."""
    before, _, logs = staged(undo, f"{OLD_ROWS} DELETE FROM old WHERE id = 1;")
    return undo.refuses("OldTemporal", [], logs) or undo.brings(["--plain-old-temporal"], logs, before)


def encrypted(words, kind, folder, options):
    """What is wrong with what is said of the encrypted log of a server with these options, if something is."""
    with kind.server(folder, options) as server:
        server.run(b"CREATE DATABASE s; CREATE TABLE s.t (id INT PRIMARY KEY); INSERT INTO s.t VALUES (1); FLUSH BINARY LOGS;")
        return Undo(words, kind, server, folder).refuses("Encrypted", [], server.logs()[:1])


# ---- All


def tests(words, kind, folder):
    """The names of tests of a kind of servers, what tests, and of what. A server runs meanwhile."""
    is_maria, place, loaded = kind.name == "MariaDB", folder / f"{kind.name}-refusals", folder / f"{kind.name}.txt"
    loaded.write_text("one\ntwo\n")
    own = [*MARIA, Scene("OldTemporal", OLD_ROWS, "old")] if is_maria else MYSQL
    files = Scene("LoadData", by_statement(f"LOAD DATA INFILE '{loaded}' INTO TABLE changed (b);"))
    with kind.server(place, [*OPTIONS, *([] if is_maria else WITHOUT_GTIDS)]) as server:
        undo = Undo(words, kind, server, place)
        server.run(f"{kind.made()}{TABLES}{OLD if is_maria else ''}FLUSH BINARY LOGS;".encode())
        for test in (rolled_back, cut, straddled, redescribed, *([outdated] if is_maria else [])):
            yield test.__name__, test, undo
        for scene in [*SCENES, files, *own, INCIDENT]:
            yield f"{scene.reason} of {scene.statements!r}", refused, undo, scene
    if is_maria:
        try:
            options = maria_daemon.encrypting(kind.program, folder / "keys")
        except LeftOut as reason:
            print(f"{reason}: no encrypted log is refused")
            return
        yield "encrypted", encrypted, words, kind, folder / "encrypted", options
