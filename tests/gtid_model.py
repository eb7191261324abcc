"""A plain model of the listing of GTIDs: the output of `binlog gtids`, and a status (`listing_model.of_command` has the command's).

The items of a log, and which of them are errors, come from the model of the listing; the fields of MySQL's GTID events come
from the model of event data, those of MariaDB's from `maria_gtid_model`. A set is a list of the intervals that were added,
which are merged at the end.
"""

import event_data_model
import listing_model
import maria_gtid_model
from event_data_model import Fault

GTID, PREVIOUS_GTIDS, GTID_TAGGED = 33, 35, 42
GTID_TYPES = (GTID, PREVIOUS_GTIDS, GTID_TAGGED)

BAD_GNO = 18
# The number behind the greatest that a GTID can have.
END = 1 << 63


def added(type_number, data, lengths):
    """The intervals that an event adds: source, tag (empty for none), first number, number behind the last one."""
    fields = event_data_model.fields(type_number, data, lengths)
    if type_number != PREVIOUS_GTIDS:
        yield fields["sid"].bytes, tag_bytes(fields["tag"]), fields["gno"], fields["gno"] + 1
        return
    for entry in fields["sids"]:
        for start, end in entry["intervals"]:
            if start < end:
                yield entry["uuid"].bytes, tag_bytes(entry["tag"]), start, end


def tag_bytes(tag):
    return b"" if tag is None else tag.bytes


def gtids_of(type_number, data, lengths):
    """What an event adds; a fault if its data can't be read or one of its numbers can't be added."""
    if type_number not in GTID_TYPES:
        return []
    intervals = list(added(type_number, data, lengths))
    if any(start < 1 or end > END for _, _, start, end in intervals):
        raise Fault(BAD_GNO)
    return intervals


def frame_gtids(frame, in_force):
    """What the event of a frame adds, MySQL's GTIDs, and MariaDB's; a fault if the item is an error, or the event is."""
    parts = listing_model.cut(frame, in_force.algorithm)
    if parts is None:
        raise Fault(4)
    data, _ = parts
    fault = listing_model.body_fault(frame, data, in_force)
    if fault is not None:
        raise Fault(fault)
    type_number = listing_model.type_number(frame)
    if maria_gtid_model.is_maria(in_force.server_version):
        return gtids_of(type_number, data, in_force.lengths), maria_gtid_model.gtids_of(
            type_number, data, listing_model.server_id(frame)
        )
    return gtids_of(type_number, data, in_force.lengths), []


def merged(intervals):
    """The same numbers as ascending intervals that don't touch."""
    result = []
    for start, end in sorted(intervals):
        if result and start <= result[-1][1]:
            result[-1][1] = max(end, result[-1][1])
        else:
            result.append([start, end])
    return result


def gaps(intervals):
    ends = [1] + [end for _, end in intervals]
    return [(end, start) for end, (start, _) in zip(ends, intervals) if end < start]


def interval_text(start, end):
    return str(start) if end - start == 1 else f"{start}-{end - 1}"


def intervals_text(intervals):
    return ",".join(interval_text(*interval) for interval in intervals) or "-"


def group_line(sid, tag, intervals):
    name = sid.hex() + (f":{tag.decode('ascii')}" if tag else "")
    numbers = merged(intervals)
    return f"{name} {intervals_text(numbers)} gaps {intervals_text(gaps(numbers))}\n"


def tracked(content):
    """The lines of the errors, for each source and tag the intervals that were added, and MariaDB's last GTIDs."""
    frames, tail = listing_model.split(content[4:])
    lines, groups, last = [], {}, {}
    for index, (frame, in_force) in enumerate(zip(frames, listing_model.in_force_at(frames))):
        try:
            intervals, gtids = frame_gtids(frame, in_force)
            for sid, tag, start, end in intervals:
                groups.setdefault((sid, tag), []).append((start, end))
            for domain, server_id, sequence in gtids:
                last[domain, server_id] = sequence
        except Fault as fault:
            lines.append(f"{index} error E{fault.args[0]}\n")
    if listing_model.is_undersized(tail):
        lines.append(f"{len(frames)} error E3\n")
    return lines, groups, last


def expected(content):
    """The standard output and the exit status for a file of this content."""
    if content[:4] != listing_model.FILE_HEADER:
        return b"", listing_model.STATUS_NOT_A_BINLOG
    lines, groups, last = tracked(content)
    group_lines = [group_line(sid, tag, groups[sid, tag]) for sid, tag in sorted(groups)]
    maria_lines = [f"{domain}-{server_id}-{last[domain, server_id]}\n" for domain, server_id in sorted(last)]
    listing = "".join(lines + group_lines + maria_lines)
    return listing.encode("ascii"), listing_model.STATUS_ERRORS if lines else listing_model.STATUS_FINE
