"""How `mysqlbinlog` has to print an event, by its line of `binlog json`."""

import re
import struct

import row_model

SETTING = re.compile(rb"(?:use (`.*`)|SET .*|/\*!\\C .*\*/|/\*!\d+ SET .*\*/)/\*!\*/;\n")
ASSIGNMENT = re.compile(rb"(?:@@session\.)?(\w+)=('[^']*'|[\w.]+)")
USER_VARIABLE = re.compile(rb"^SET @(`.*`):=(.*)/\*!\*/;\n", re.MULTILINE)
STATEMENT_END = b"\n/*!*/;\n"
GTID_NEXT = re.compile(rb"SET @@SESSION\.GTID_NEXT= '(.*)'")
VERSIONS = re.compile(rb"@@session\.(original|immediate)_server_version=(\d+)")
NUMBERS = re.compile(rb"(\w+)=(\d+)")

# The types of user variables, and the flag of a number without a sign.
STRING, REAL, WHOLE, DECIMAL = 0, 1, 2, 4
UNSIGNED = 1

# The flag of an event before which no schema is printed.
NO_SCHEMA = 8

# The bits of `Flags2`, and whether they state that the setting is on.
FLAGS = {
    "sql_auto_is_null": (0x4000, True),
    "autocommit": (0x80000, False),
    "foreign_key_checks": (0x400_0000, False),
    "unique_checks": (0x800_0000, False),
}
STATEMENT_ENDS, NO_FOREIGN_KEYS, NO_UNIQUE_KEYS, COMPLETE_ROWS, FOREIGN_KEYS_BY_STATEMENTS = 1, 2, 4, 8, 16
ROW_FLAGS = {
    STATEMENT_ENDS: "STMT_END_F",
    NO_FOREIGN_KEYS: "NO_FOREIGN_KEY_CHECKS_F",
    NO_UNIQUE_KEYS: "RELAXED_UNIQUE_CHECKS_F",
    COMPLETE_ROWS: "COMPLETE_ROWS_F",
    FOREIGN_KEYS_BY_STATEMENTS: "USE_SQL_FOREIGN_KEY_F",
}
ROWS = {
    "WRITE_ROWS_EVENT": "Write_rows",
    "UPDATE_ROWS_EVENT": "Update_rows",
    "DELETE_ROWS_EVENT": "Delete_rows",
    "PARTIAL_UPDATE_ROWS_EVENT": "Update_rows_partial",
}
# The numbers of a GTID as they are printed, and the members of the line.
GTID_NUMBERS = {
    "last_committed": "last_committed",
    "sequence_number": "sequence_number",
    "original_committed_timestamp": "original_commit_timestamp",
    "immediate_commit_timestamp": "immediate_commit_timestamp",
    "transaction_length": "tx_length",
}
# The key and the value of the status variable that ends the list of those that are read, and what it sets.
CASCADE_TRIGGERS = 21


def quoted(text):
    return "`" + text.replace("`", "``") + "`"


def hexed(text):
    return text["hex"] if isinstance(text, dict) else text.encode().hex()


class Events:
    """The events of a log, in order: `mysqlbinlog` prints a setting again only if it changes. `collations` are the server's: for
    each number the name of its character set and its own."""

    def __init__(self, collations):
        self.collations, self.settings, self.schema = collations, {"enable_cascade_triggers": "0"}, None

    def differences(self, line, printed):
        """What differs between an event's line and how it is printed."""
        yield from unless_equal("header", header_of(line, printed), header_of_printed(printed))
        said = self.SAID.get(line["name"])
        if said is None:
            yield f"an event of type {line['name']}, printed as {printed.says!r}"
        else:
            yield from said(self, line["data"], printed)

    def no_data(self, data, printed):
        yield from unless_equal("data", data, {})

    def description(self, data, printed):
        yield from says(printed, f"Start: binlog v {data['binlog_version']}, server v {data['server_version']} created ")

    def statement(self, data, printed):
        xid = next((f"\tXid = {value}" for key, value in pairs(data) if key == "DdlLoggedWithXid"), "")
        head = f"Query\tthread_id={data['thread_id']}\texec_time={data['execution_time']}\terror_code={data['error_code']}"
        yield from says(printed, head + xid, is_whole=True)
        yield from self.text_of_statement(data, printed)

    def text_of_statement(self, data, printed):
        text = self.take_settings(printed)
        if data["schema"] and not printed.flags & NO_SCHEMA:
            yield from unless_equal("schema", quoted(data["schema"]), self.schema)
        yield from unless_equal("statement", bytes.fromhex(hexed(data["query"])) + STATEMENT_END, text)
        yield from self.settings_of(data, printed)

    def take_settings(self, printed):
        """Takes the settings of a statement; gives what is printed behind them."""
        body = printed.body
        while setting := SETTING.match(body):
            if setting[1] is not None:
                self.schema = setting[1].decode()
            for name, value in ASSIGNMENT.findall(setting[0]):
                self.settings[name.decode()] = value.decode().strip("'")
            body = body[setting.end() :]
        return body

    def settings_of(self, data, printed):
        """The settings of a statement, by its status variables."""
        wanted = {name: str(value) for name, value in settings(data, printed)}
        wrong = [name for name, value in wanted.items() if self.settings.get(name) != value]
        found = {name: self.settings.get(name) for name in wrong}
        yield from unless_equal("settings", {name: wanted[name] for name in wrong}, found)

    def rotate(self, data, printed):
        yield from says(printed, f"Rotate to {data['name']}  pos: {data['position']}", is_whole=True)

    def intvar(self, data, printed):
        name, number = re.fullmatch(r"SET (\w+)=(-?\d+)/\*!\*/;\n", printed.body.decode()).groups()
        yield from unless_equal("setting", {1: "LAST_INSERT_ID", 2: "INSERT_ID"}[data["subtype"]], name)
        # Numbers from 2^63 on are printed below zero.
        yield from unless_equal("number", data["value"], int(number) % 2**64)

    def rand(self, data, printed):
        wanted = f"SET @@RAND_SEED1={data['seed1']}, @@RAND_SEED2={data['seed2']}/*!*/;\n"
        yield from unless_equal("seeds", wanted.encode(), printed.body)

    def user_variable(self, data, printed):
        name, value = USER_VARIABLE.search(printed.body).groups()
        yield from unless_equal("name", quoted(data["name"]), name.decode())
        found = float(value) if data["value_type"] == REAL and not data["is_null"] else value.decode()
        yield from unless_equal("value", self.user_variable_value(data), found)

    def user_variable_value(self, data):
        """The value of a user variable: its text, or a floating-point number."""
        content = bytes.fromhex(data["value"])
        if data["is_null"]:
            return "NULL"
        if data["value_type"] == REAL:
            return struct.unpack("<d", content)[0]
        if data["value_type"] == WHOLE:
            return str(int.from_bytes(content, "little", signed=not data["flags"] & UNSIGNED))
        if data["value_type"] == DECIMAL:
            return row_model.decimal(*content[:2])(row_model.Bytes(content[2:]), None)
        charset, collation = self.collations[data["charset"]]
        digits = "0x" + content.hex().upper() if content else '""'
        return f"_{charset} {digits} COLLATE `{collation}`"

    def xid(self, data, printed):
        yield from says(printed, f"Xid = {data['xid']}", is_whole=True)

    def loaded_block(self, data, printed):
        yield from says(printed, f"Begin_load_query: file_id: {data['file_id']}  block_len: {len(data['block_data']) // 2}")

    def appended_block(self, data, printed):
        file_id = int.from_bytes(bytes.fromhex(data["raw"])[:4], "little")
        yield from says(printed, f"Append_block: file_id: {file_id}  block_len: {len(data['raw']) // 2 - 4}")

    def load(self, data, printed):
        head = f"Execute_load_query\tthread_id={data['thread_id']}\texec_time={data['execution_time']}"
        yield from says(printed, head + f"\terror_code={data['error_code']}", is_whole=True)
        query = bytes.fromhex(hexed(data["query"]))
        before, behind = query[: data["start_pos"]], query[data["end_pos"] :]
        yield None if before in printed.body and behind in printed.body else f"a load of {query!r}, printed as {printed.body!r}"
        yield from unless_equal("file", f"# file_id: {data['file_id']} \n".encode(), printed.body.splitlines(keepends=True)[-1])

    def rows_query(self, data, printed):
        lines = b"".join(b"# " + line + b"\n" for line in bytes.fromhex(hexed(data["query"])).split(b"\n"))
        yield from says(printed, "Rows_query", is_whole=True)
        yield from unless_equal("statement", lines, printed.body)

    def gtid(self, data, printed):
        found = {name.decode(): int(value) for name, value in NUMBERS.findall(printed.says)}
        yield from unless_equal("numbers", {name: data[member] for name, member in GTID_NUMBERS.items()}, found)
        is_rows_alone = b"rbr_only=yes" in printed.says
        yield from unless_equal("flags", data["flags"] & 1, int(not is_rows_alone))
        versions = {kind.decode(): int(number) for kind, number in VERSIONS.findall(printed.body)}
        yield from unless_equal("versions", {kind: data[f"{kind}_server_version"] for kind in ("original", "immediate")}, versions)
        tag = f":{data['tag']}" if data["tag"] else ""
        is_anonymous = printed.says.startswith(b"Anonymous_GTID")
        wanted = "ANONYMOUS" if is_anonymous else f"{data['sid']}{tag}:{data['gno']}"
        yield from unless_equal("GTID", wanted, GTID_NEXT.search(printed.body)[1].decode())

    def previous_gtids(self, data, printed):
        found = {}
        for entry in data["sids"]:
            key = entry["uuid"], entry["tag"] or ""
            found[key] = found.get(key, []) + [(start, end - 1) for start, end in entry["intervals"]]
        yield from unless_equal("GTIDs", found, previous_gtids(printed))

    def table_map(self, data, printed):
        name = f"{quoted_as_is(data['database_name'])}.{quoted_as_is(data['table_name'])}"
        yield from says(printed, f"Table_map: {name} mapped to number {data['table_id']}", is_whole=True)

    def rows(self, data, printed):
        kind, flags = printed.says.decode().split(": table id ")[0], data["flags"]
        number, *names = printed.says.decode().split(": table id ")[1].replace(" flags: ", " ").split()
        yield from unless_equal("table", data["table_id"], int(number))
        yield from unless_equal("flags", [name for bit, name in ROW_FLAGS.items() if flags & bit], names)
        yield None if kind in ROWS.values() else f"rows that are printed as {kind}"

    def xa_prepare(self, data, printed):
        content = bytes.fromhex(data["raw"])
        format_id, first, second = (int.from_bytes(content[start : start + 4], "little") for start in (1, 5, 9))
        parts = content[13 : 13 + first].hex(), content[13 + first : 13 + first + second].hex()
        yield from says(printed, f"XA PREPARE X'{parts[0]}',X'{parts[1]}',{format_id}", is_whole=True)

    def payload(self, data, printed):
        found = {name.decode(): int(value) for name, value in NUMBERS.findall(printed.says)}
        yield from unless_equal("payload", {name: data[name] for name in ("payload_size", "uncompressed_size")}, found)

    SAID = {
        "FORMAT_DESCRIPTION_EVENT": description,
        "QUERY_EVENT": statement,
        "STOP_EVENT": no_data,
        "ROTATE_EVENT": rotate,
        "INTVAR_EVENT": intvar,
        "RAND_EVENT": rand,
        "USER_VAR_EVENT": user_variable,
        "XID_EVENT": xid,
        "BEGIN_LOAD_QUERY_EVENT": loaded_block,
        "APPEND_BLOCK_EVENT": appended_block,
        "EXECUTE_LOAD_QUERY_EVENT": load,
        "ROWS_QUERY_EVENT": rows_query,
        "GTID_EVENT": gtid,
        "ANONYMOUS_GTID_EVENT": gtid,
        "GTID_TAGGED_LOG_EVENT": gtid,
        "PREVIOUS_GTIDS_EVENT": previous_gtids,
        "TABLE_MAP_EVENT": table_map,
        "XA_PREPARE_LOG_EVENT": xa_prepare,
        "TRANSACTION_PAYLOAD_EVENT": payload,
    } | dict.fromkeys(ROWS, rows)


def unless_equal(name, found, wanted):
    yield None if found == wanted else f"{name} {found!r}, printed as {wanted!r}"


def says(printed, text, is_whole=False):
    """Whether the printed line is this text, or begins with it."""
    found = printed.says.decode(errors="surrogateescape")
    yield from unless_equal("event", text, found if is_whole else found[: len(text)])


def header_of(line, printed):
    names = ("timestamp", "type", "server_id", "event_size", "log_pos", "flags", "checksum")
    header = {name: line[name] for name in names}
    # A description has a checksum even where it says that events have none, and then it isn't printed.
    is_unsaid = line["name"] == "FORMAT_DESCRIPTION_EVENT" and printed.checksum is None
    return header | {"checksum": None} if is_unsaid else header


def header_of_printed(printed):
    checksum = None if printed.checksum is None else printed.checksum.hex()
    numbers = {"timestamp": printed.timestamp, "type": printed.type, "server_id": printed.server, "event_size": printed.size}
    return numbers | {"log_pos": printed.log_pos, "flags": printed.flags, "checksum": checksum}


def quoted_as_is(text):
    """A name as it stands in the text of a table map, where nothing is doubled."""
    return f"`{text}`"


def pairs(data):
    return [(variable["key"], variable["value"]) for variable in data["status_vars"]]


def settings(data, printed):
    """What the status variables set, as they are printed."""
    known = dict(pairs(data))
    if "Flags2" in known:
        yield from ((name, int(bool(known["Flags2"] & bit) == is_on)) for name, (bit, is_on) in FLAGS.items())
    if "SqlMode" in known:
        yield "sql_mode", known["SqlMode"]
    step = known.get("AutoIncrement", {"increment": 1, "offset": 1})
    yield from ((f"auto_increment_{name}", value) for name, value in step.items())
    if "Charset" in known:
        names = ("character_set_client", "collation_connection", "collation_server")
        yield from zip(names, known["Charset"].values())
    if "TimeZone" in known:
        yield "time_zone", known["TimeZone"]
    yield "lc_time_names", known.get("LcTimeNames", 0)
    yield "collation_database", known.get("CharsetDatabase", "DEFAULT")
    for key, name in OTHERS.items():
        if key in known:
            yield name, known[key]
    microseconds = f".{known['Microseconds']:06}" if known.get("Microseconds") else ""
    yield "TIMESTAMP", f"{printed.timestamp}{microseconds}"
    rest = bytes.fromhex(data.get("status_vars_rest", ""))
    if rest and rest[0] == CASCADE_TRIGGERS:
        yield "enable_cascade_triggers", rest[1]


OTHERS = {
    "DefaultCollationForUtf8mb4": "default_collation_for_utf8mb4",
    "SqlRequirePrimaryKey": "sql_require_primary_key",
    "DefaultTableEncryption": "default_table_encryption",
}


def previous_gtids(printed):
    """The GTIDs of a printed list of previous ones."""
    text = b"".join(line.removeprefix(b"# ") for line in printed.body.splitlines()).decode()
    return gtids_of_set("" if text == "[empty]" else text)


def gtids_of_set(text):
    """The intervals of a set of GTIDs, by source and tag."""
    found = {}
    for source in text.split(",") if text else []:
        uuid, *parts = source.strip().split(":")
        tag = ""
        for part in parts:
            if part[0].isdigit():
                first, _, last = part.partition("-")
                found.setdefault((uuid, tag), []).append((int(first), int(last or first)))
            else:
                tag = part
    return found
