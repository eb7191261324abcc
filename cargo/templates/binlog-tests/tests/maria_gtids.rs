//! The last of MariaDB's GTIDs, and sets of them.

use binlog::mariadb::{
    GtidListEvent, MariaEventData, MariaGtid, MariaGtidEvent, MariaGtidFault, MariaGtidSet,
    MariaGtidTextError, MariaGtidTracker, StartEncryptionEvent,
};

/// A domain, a server id and a sequence number.
type Gtid = (u32, u32, u64);

fn gtid((domain, server_id, sequence): Gtid) -> MariaGtid {
    MariaGtid::new(domain, server_id, sequence)
}

/// A tracker that these GTID events were added to, in this order.
fn tracker_of(gtids: &[Gtid]) -> MariaGtidTracker {
    let mut tracker = MariaGtidTracker::new();
    for &(domain, server_id, sequence) in gtids {
        let event = MariaEventData::GtidEvent(MariaGtidEvent::new(domain, sequence));
        tracker.add_event(server_id, &event).unwrap();
    }
    tracker
}

fn assert_has(tracker: &MariaGtidTracker, wanted: &[Gtid]) {
    let wanted: Vec<_> = wanted.iter().copied().map(gtid).collect();
    assert_eq!(tracker.entries(), wanted);
    assert_eq!(
        (tracker.len(), tracker.is_empty()),
        (wanted.len(), wanted.is_empty())
    );
}

#[test]
fn entries_ascend_by_domain_and_then_by_server() {
    let tracker = tracker_of(&[(9, 7, 1), (3, 8, 2), (9, 6, 4), (0, 1, 1), (3, 9, 3)]);
    assert_has(
        &tracker,
        &[(0, 1, 1), (3, 8, 2), (3, 9, 3), (9, 6, 4), (9, 7, 1)],
    );
}

#[test]
fn the_last_one_counts_though_it_is_less() {
    assert_has(
        &tracker_of(&[(0, 1, 5), (0, 2, 6), (0, 1, 3)]),
        &[(0, 1, 3), (0, 2, 6)],
    );
}

#[test]
fn numbers_are_as_great_and_as_small_as_they_can_be() {
    let greatest = (u32::MAX, u32::MAX, u64::MAX);
    assert_has(&tracker_of(&[greatest, (0, 0, 0)]), &[(0, 0, 0), greatest]);
}

#[test]
fn a_list_adds_its_entries_and_keeps_others() {
    for (entries, wanted) in [
        // A pair of domain and server that is there twice.
        (
            &[(1, 1, 7), (0, 1, 1), (1, 1, 4)][..],
            &[(0, 1, 1), (1, 1, 4), (2, 5, 9)][..],
        ),
        (&[(2, 6, 1), (2, 5, 8)], &[(2, 5, 8), (2, 6, 1)]),
        (&[], &[(2, 5, 9)]),
    ] {
        let mut tracker = tracker_of(&[(2, 5, 9)]);
        let entries = entries.iter().copied().map(gtid).collect();
        let list = MariaEventData::GtidListEvent(GtidListEvent::new(entries));
        tracker.add_event(99, &list).unwrap();
        assert_has(&tracker, wanted);
    }
}

#[test]
fn last_numbers_are_found() {
    let mut tracker = MariaGtidTracker::new();
    tracker.add(gtid((4, 1, 10))).unwrap();
    tracker.add(gtid((2, 3, 11))).unwrap();
    assert_eq!(
        (tracker.last(2, 3), tracker.last(4, 1)),
        (Some(11), Some(10))
    );
    for (domain, server_id) in [(3, 2), (2, 1), (4, 3)] {
        assert_eq!(tracker.last(domain, server_id), None);
    }
}

#[test]
fn other_events_add_nothing() {
    let mut tracker = MariaGtidTracker::new();
    let event = MariaEventData::StartEncryptionEvent(StartEncryptionEvent::new(1, 1, [0; 12]));
    tracker.add_event(7, &event).unwrap();
    assert_has(&tracker, &[]);
}

#[test]
fn a_set_has_the_gtids_of_its_text() {
    let text = "3-1-5,0-7-18446744073709551615,0-7-2,3-1-5,4294967295-4294967295-0,00-007-09";
    let set: MariaGtidSet = text.parse().unwrap();
    for member in [
        (3, 1, 5),
        (0, 7, u64::MAX),
        (0, 7, 2),
        (u32::MAX, u32::MAX, 0),
        (0, 7, 9),
    ] {
        assert!(set.contains(gtid(member)), "{member:?}");
    }
    // Each differs in one number from a member.
    for other in [
        (2, 1, 5),
        (3, 0, 5),
        (3, 1, 4),
        (0, 7, 3),
        (0, u32::MAX, 0),
        (0, 7, 0),
    ] {
        assert!(!set.contains(gtid(other)), "{other:?}");
    }
}

#[test]
fn a_fault_is_that_of_the_first_part_that_has_one() {
    for (text, fault, part) in [
        ("", MariaGtidFault::Hyphens, 1),
        ("0-1-2,", MariaGtidFault::Hyphens, 2),
        ("0-1-2,0-1", MariaGtidFault::Hyphens, 2),
        ("--", MariaGtidFault::Number, 1),
        (" 0-1-2", MariaGtidFault::Number, 1),
        ("0-1-2-3", MariaGtidFault::Number, 1),
        ("0-+1-2", MariaGtidFault::Number, 1),
        ("0-1-2,0-1-3,4294967296-1-2", MariaGtidFault::Range, 3),
        ("0-4294967296-x", MariaGtidFault::Range, 1),
        ("0-1-18446744073709551616", MariaGtidFault::Range, 1),
    ] {
        let error = text.parse::<MariaGtidSet>().err();
        assert_eq!(
            error,
            Some(MariaGtidTextError::Invalid(fault, part)),
            "{text:?}"
        );
    }
}
