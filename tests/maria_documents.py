"""Documents of MySQL's type JSON as a MariaDB server shows them, by its plugin `type_mysql_json`.

The server's table has the definition of a table of MySQL 5.7's, with a JSON column, and the records of a table of its own, with a
LONGBLOB in place of that column: their records are alike. The plugin has faults, so it isn't given every document. It loses the text in
front of a decimal number within a document, knows decimal numbers of at most 65 digits, shows no time outside the calendar, takes
a document of no bytes for an error, and some damaged documents end the server.
"""

import shutil

import binary_json
import binary_json_model as model
import maria_daemon
from binary_json_model import Members, NoText, Opaque
from maria_daemon import LeftOut, Server

PLUGIN = "type_mysql_json"
MOST_DIGITS = 65
MOST_BYTES = 5_000

TEXT = "character set utf8mb4 collate utf8mb4_unicode_ci"
TABLE = f"""create database test; use test;
create table t (description varchar(100) {TEXT}, expected longtext {TEXT}, actual longblob)
    engine=myisam default charset=utf8mb4 collate=utf8mb4_unicode_ci;
"""


def shown(documents, definition, folder):
    """The server's texts for documents. The definition is the file of MySQL's table."""
    program = maria_daemon.program_in(folder / "packages")
    plugins = maria_daemon.plugins_of(program)
    if not (plugins / f"{PLUGIN}.so").exists():
        raise LeftOut(f"there is no plugin {PLUGIN}")
    with Server(program, folder / PLUGIN, [f"--plugin-dir={plugins}", f"--plugin-load-add={PLUGIN}"]) as server:
        rows = (f"insert into t values ('{number}', '', 0x{document.hex()});\n" for number, document in enumerate(documents))
        server.run((TABLE + "".join(rows) + "flush tables;\n").encode())
        shutil.copy(definition, server.data / "test/t.frm")
        found = server.run(b"use test; alter table t force; select hex(actual) from t order by cast(description as unsigned);")
    return [bytes.fromhex(line).decode() for line in found.decode().splitlines()[1:]]


# ---- Documents that the plugin shows as MySQL does


def random_documents(rng, count):
    """Documents of random values as a server writes them."""
    values = (as_shown(rng, binary_json.random_value(rng, rng.randrange(4))) for _ in range(count))
    return [document for document in map(model.document, filter(has_text, values)) if len(document) <= MOST_BYTES]


def as_shown(rng, value, is_whole=True):
    """The value, with another one in place of each that the plugin shows otherwise than MySQL."""
    if isinstance(value, Members):
        return Members(tuple((key, as_shown(rng, member, False)) for key, member in value.pairs))
    if isinstance(value, list):
        return [as_shown(rng, element, False) for element in value]
    if isinstance(value, Opaque) and value.column in model.TEMPORAL:
        return moment(rng, value.column)
    if isinstance(value, Opaque) and value.column == model.DECIMAL:
        return value if is_whole and value.content[0] <= MOST_DIGITS else None
    return value


def moment(rng, column):
    """A date, a time or both, within the calendar."""
    clock = rng.randrange(24) << 12 | rng.randrange(60) << 6 | rng.randrange(60)
    date = (rng.randrange(1, 10_000) * 13 + rng.randrange(1, 13)) << 22 | rng.randrange(1, 29) << 17
    micro = rng.randrange(1_000_000)
    if column == model.TIME:
        return model.packed_time(column, rng.choice([1, -1]) * (clock << 24 | micro))
    return model.packed_time(column, date << 24 if column == model.DATE else (date | clock) << 24 | micro)


def has_text(value):
    try:
        model.text(value)
    except NoText:
        return False
    return True
