//! The texts of state files.
use binlog_tools::binlog_rotation::{Checkpoint, FollowState, StateError, WrittenFile};

const TEXT: &str = "binlog-state 1\nposition 43813\ncrc32 1595327006\ndevice 2053\ninode 131\nlength 19998\nfile mysql-bin.000003\n";

fn state() -> FollowState {
    FollowState {
        checkpoint: Checkpoint { position: 43_813, crc32: 1_595_327_006 },
        output: WrittenFile { device: 2053, inode: 131, len: 19_998 },
    }
}

#[test]
fn a_state_has_its_text() {
    assert_eq!(state().text("mysql-bin.000003").unwrap(), TEXT.as_bytes());
    assert_eq!(FollowState::parse(TEXT), Ok((state(), "mysql-bin.000003")));
}

#[test]
fn numbers_may_be_the_least_and_the_greatest() {
    let least = FollowState {
        checkpoint: Checkpoint { position: 0, crc32: 0 },
        output: WrittenFile { device: 0, inode: 0, len: 0 },
    };
    let greatest = FollowState {
        checkpoint: Checkpoint { position: u64::MAX, crc32: u32::MAX },
        output: WrittenFile { device: u64::MAX, inode: u64::MAX, len: u64::MAX },
    };
    for state in [least, greatest] {
        for file in ["", "log", "a b\nfile c\n"] {
            let text = String::from_utf8(state.text(file).unwrap()).unwrap();
            assert_eq!(FollowState::parse(&text), Ok((state, file)));
        }
    }
}

#[test]
fn other_texts_are_refused() {
    let changed = [
        ("state 1", "state 2"),
        ("43813", "043813"),
        ("43813", "+43813"),
        ("43813", ""),
        ("43813", "18446744073709551616"),
        ("1595327006", "4294967296"),
        ("crc32", "crc"),
        ("device 2053\n", ""),
        ("131", "131 "),
        ("length", "len"),
        ("file ", "file"),
    ];
    for (old, new) in changed {
        let text = TEXT.replacen(old, new, 1);
        assert_eq!(FollowState::parse(&text), Err(StateError::Invalid), "{text}");
    }
    for end in 0..TEXT.len() {
        assert_eq!(FollowState::parse(&TEXT[..end]), Err(StateError::Invalid));
    }
}
