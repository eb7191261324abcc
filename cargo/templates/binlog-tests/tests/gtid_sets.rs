//! Sets of transaction numbers and of GTIDs, and their texts.

use binlog::events::{EventData, GnoInterval, PreviousGtidsEvent, PreviousGtidsSid, Tag};
use binlog::gtid_text::{GtidTextError, GtidTextFault, parse};
use binlog::{GnoSet, GtidTracker};

/// A source, and one before it.
const A: [u8; 16] = [0xab; 16];
const B: [u8; 16] = [0x12; 16];

/// Intervals, each as its start and the number behind its last.
type Intervals = &'static [(u64, u64)];

/// A source, a tag or none, and intervals.
type Entry = ([u8; 16], Option<&'static str>, Intervals);

fn pairs(intervals: &[GnoInterval]) -> Vec<(u64, u64)> {
    intervals
        .iter()
        .map(|interval| (interval.start(), interval.end()))
        .collect()
}

fn numbers(intervals: Intervals) -> GnoSet {
    let mut set = GnoSet::new();
    for &(start, end) in intervals {
        set.insert(start, end).unwrap();
    }
    set
}

fn tag(text: Option<&'static str>) -> Option<Tag<'static>> {
    text.map(|text| Tag::new(text).unwrap())
}

/// The set of the GTIDs of a PREVIOUS_GTIDS event with these entries.
fn tracker(entries: &[Entry]) -> GtidTracker {
    let sids = entries.iter().map(|&(sid, text, intervals)| {
        let intervals = intervals
            .iter()
            .map(|&(start, end)| GnoInterval::new(start, end));
        PreviousGtidsSid::new(sid, tag(text), intervals.collect())
    });
    let data = EventData::PreviousGtidsEvent(PreviousGtidsEvent::new(sids.collect()));
    let mut set = GtidTracker::new();
    set.add_event(&data).unwrap();
    set
}

/// Compares the groups of a set, in their order.
fn assert_groups(set: &GtidTracker, entries: &[Entry]) {
    assert_eq!(set.len(), entries.len());
    assert_eq!(set.is_empty(), entries.is_empty());
    for (at, &(sid, text, intervals)) in entries.iter().enumerate() {
        let (group_sid, group_tag) = set.group(at).unwrap();
        assert_eq!((group_sid, group_tag.map(Tag::as_str)), (sid, text));
        assert_eq!(pairs(set.intervals(sid, tag(text).as_ref())), intervals);
    }
    assert!(set.group(entries.len()).is_none());
}

#[test]
fn an_end_is_not_in_its_interval() {
    let set = numbers(&[(1, 6), (8, 9)]);
    for (number, is_in) in [(5, true), (6, false), (8, true)] {
        assert_eq!(set.contains(number), is_in);
        assert_eq!(set.clone().contains(number), is_in);
    }
    assert!(!set.is_empty());
}

#[test]
fn intervals_are_sorted_and_gaps_are_between_them() {
    let set = numbers(&[(30, 32), (4, 6), (8, 9), (9, 10)]);
    assert_eq!(pairs(set.intervals()), [(4, 6), (8, 10), (30, 32)]);
    assert_eq!(pairs(&set.gaps().unwrap()), [(1, 4), (6, 8), (10, 30)]);
}

#[test]
fn a_union_has_the_numbers_of_both() {
    let union = numbers(&[(1, 6)]).union(&numbers(&[(6, 8), (10, 11)]));
    assert_eq!(pairs(union.unwrap().intervals()), [(1, 8), (10, 11)]);
}

const GROUPS: &[Entry] = &[
    (B, None, &[(3, 4)]),
    (B, Some("Z"), &[(1, 2)]),
    (B, Some("a"), &[(1, 2)]),
    (B, Some("aa"), &[(1, 2)]),
    (A, Some("test"), &[(2, 6), (9, 10)]),
];

#[test]
fn sources_and_tags_are_in_the_order_of_their_bytes() {
    let set = tracker(&[
        (A, Some("test"), &[(9, 10)]),
        (B, Some("aa"), &[(1, 2)]),
        (B, Some("a"), &[(1, 2)]),
        (A, Some("test"), &[(2, 6)]),
        (B, Some("Z"), &[(1, 2)]),
        (B, None, &[(3, 4)]),
    ]);
    assert_groups(&set, GROUPS);
    assert_groups(&set.clone(), GROUPS);
}

#[test]
fn numbers_are_of_a_source_and_a_tag() {
    let set = tracker(GROUPS);
    for (text, number, is_in) in [
        (Some("test"), 5, true),
        (Some("test"), 6, false),
        (None, 5, false),
    ] {
        assert_eq!(set.contains(A, tag(text).as_ref(), number), is_in);
    }
}

const FIRST: &[Entry] = &[
    (B, None, &[(1, 11)]),
    (A, None, &[(1, 3), (5, 9)]),
    (A, Some("test"), &[(1, 2)]),
];

const SECOND: &[Entry] = &[(A, None, &[(2, 6), (20, 30)]), (A, Some("test"), &[(1, 4)])];

/// The GTIDs of the first that the second lacks.
const MISSING: &[Entry] = &[(B, None, &[(1, 11)]), (A, None, &[(1, 2), (6, 9)])];

#[test]
fn a_difference_is_what_the_other_set_lacks() {
    for (entries, others, missing) in [
        (FIRST, SECOND, MISSING),
        (FIRST, &[], FIRST),
        (FIRST, FIRST, &[]),
    ] {
        let (set, other) = (tracker(entries), tracker(others));
        assert_groups(&set.subtract(&other).unwrap(), missing);
        assert_groups(&set, entries);
        assert_groups(&other, others);
    }
}

#[test]
fn subsets() {
    for (entries, others, is_subset) in [
        (MISSING, FIRST, true),
        (&[], FIRST, true),
        (FIRST, SECOND, false),
        (FIRST, MISSING, false),
    ] {
        assert_eq!(tracker(entries).is_subset(&tracker(others)), is_subset);
    }
}

const SID: &str = "3e11fa47-71ca-11e1-9e33-c80aa9429562";

// After the manual: "GTID Format and Storage".
#[test]
fn texts_are_read_and_written() {
    for (text, wanted) in [
        (String::new(), String::new()),
        (" \t\n".into(), String::new()),
        (
            format!("{}:1-5:11", SID.to_uppercase()),
            format!("{SID}:1-5:11"),
        ),
        // Touching intervals, out of order; sources out of order; whitespace around all separators.
        (
            format!(
                " {SID} : 7 - 8 : 6 : a_1 : 1-3 : 5 ,\r\n00000000-0000-0000-0000-00000000000F:007 "
            ),
            format!("00000000-0000-0000-0000-00000000000f:7,{SID}:6-8:a_1:1-3:5"),
        ),
        // No tag comes first. The case of tags is kept.
        (format!("{SID}:b:1:B:2,{SID}:3"), format!("{SID}:3:B:2:b:1")),
        // No numbers.
        (SID.into(), String::new()),
        (format!("{SID}:5-4:5-0"), String::new()),
        // The greatest number.
        (
            format!("{SID}:9223372036854775806-9223372036854775807"),
            format!("{SID}:9223372036854775806-9223372036854775807"),
        ),
    ] {
        assert_eq!(parse(&text).unwrap().to_string(), wanted);
    }
}

#[test]
fn faults_of_texts_are_found_where_they_are() {
    for (text, fault, at) in [
        ("x", GtidTextFault::Uuid, 0),
        (
            " 3e11fa47-71ca-11e1-9e33-c80aa942956",
            GtidTextFault::Uuid,
            1,
        ),
        ("3e11fa4771ca11e19e33c80aa9429562:1", GtidTextFault::Uuid, 0),
        (
            "3e11fa47-71ca-11e1-9e33-c80aa942956g:1",
            GtidTextFault::Uuid,
            0,
        ),
    ] {
        assert_eq!(parse(text).err(), Some(GtidTextError::Invalid(fault, at)));
    }
    for (behind, fault, at) in [
        (";1", GtidTextFault::Separator, 0),
        (":1 2", GtidTextFault::Separator, 3),
        (":1,", GtidTextFault::Uuid, 3),
        (": ", GtidTextFault::Number, 2),
        (":1-", GtidTextFault::Number, 3),
        (":a", GtidTextFault::Colon, 2),
        (":a:b:1", GtidTextFault::Number, 3),
        (
            ":a23456789012345678901234567890123:1",
            GtidTextFault::Tag,
            1,
        ),
        (":0", GtidTextFault::Range, 1),
        (":1-9223372036854775808", GtidTextFault::Range, 3),
        (":99999999999999999999", GtidTextFault::Range, 1),
    ] {
        let refusal = GtidTextError::Invalid(fault, SID.len() + at);
        assert_eq!(parse(&format!("{SID}{behind}")).err(), Some(refusal));
    }
}
