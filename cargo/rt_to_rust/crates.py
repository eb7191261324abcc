"""Which crates are converted, and into which package."""

LIBRARY = [
    "crc32_ieee",
    "binlog_wire",
    "character_sets",
    "binlog_consts",
    "binlog_variable_fields",
    "binlog_event_format",
    "binlog_bodies",
    "binlog_statements",
    "binlog_gtids",
    "binlog_rows",
    "binlog_columns",
    "binlog_values",
    "binlog_optional_metadata",
    "column_files",
    "binlog_declared_columns",
    "binlog_images",
    "binlog_row_writing",
    "binlog_event_data",
    "binlog_gtid_sets",
    "binlog_gtid_text",
    "binlog_ends",
    "binlog_events",
    "inflate",
    "binlog_mariadb",
    "binlog_maria_gtids",
    "binlog_file",
    "zstd_decode",
    "binlog_payloads",
    "json_line",
    "binary_json",
    "binary_json_writing",
    "binary_json_lines",
    "binlog_json_values",
    "binlog_undo",
    "binlog_transactions",
    "binlog_undo_index",
]
TOOLS = [
    "binlog_rotation",
    "binlog_following",
    "binlog_visits",
    "binlog_payload_visits",
    "binlog_listing",
    "binlog_gtid_listing",
    "binlog_filters",
    "binlog_commands",
    "change_statistics",
    "binlog_statistics",
    "binlog_event_types",
    "binlog_json_bodies",
    "binlog_json_lines",
    "binlog_later_changes",
    "binlog_undo_log",
    "binlog_change_lines",
    "binlog_payload_filters",
    "binlog_cli",
    "binlog_undo_command",
    "binlog_summaries",
    "binlog_inputs",
    "binlog_statistics_command",
    "binlog_event_commands",
]

# The crates of programs, and the programs' names; and that of the program that the scripts of `tests` run.
PROGRAMS = {"binlog": "binlog"}
PROBES = {"probe": "probe"}

# Modules of these that the packages don't have: the benchmark measures the proved program.
LEFT_OUT = {"probe": ("measured",)}

# The crate of tests, and what only it uses: the recipes of CALLING.md.
TESTKITS = ["examples"]
TESTS = ["library_tests"]

# The sources that are written by hand in the packages, in `templates`: what real devices are there isn't what the proved
# sources know of them (`devices.py`), and the program of `tests` has fewer modes there.
BY_HAND = [
    "binlog_ends/src/lib.rt",
    "binlog_ends/src/borrowed.rt",
    "binlog_ends/src/counted.rt",
    "binlog_ends/src/failed.rt",
    "binlog_ends/src/writing.rt",
    "probe/src/main.rt",
]

# The crates of each package.
PACKAGES = {
    "binlog": LIBRARY,
    "binlog-tools": [*TOOLS, *PROGRAMS],
    "binlog-tests": [*TESTKITS, *TESTS, *PROBES],
}

# The packages that may be published.
PUBLISHED = ("binlog", "binlog-tools")


def sources(crate_folder):
    """The sources of a crate that are converted: all but tests, laws and what is left out."""
    left_out = LEFT_OUT.get(crate_folder.name, ())
    for path in sorted((crate_folder / "src").rglob("*.rt")):
        relative = path.relative_to(crate_folder / "src")
        if relative.with_suffix("").parts[0] in left_out:
            continue
        if relative.stem not in ("tests", "laws") and "tests" not in relative.parts:
            yield path, relative
