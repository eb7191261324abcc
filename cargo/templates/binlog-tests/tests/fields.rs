//! The fields that bodies are made of: their sizes, flags, and integers of variable width.

use binlog::consts::{EventFlags, IntvarEventType, RowsEventFlags, UserVarFlags};
use binlog::events::GnoInterval;
use binlog::misc::{lenenc_int_len, read_varlen_int, varlen_uint_size, write_varlen_int};
use binlog::raw::{
    Const, EofBytes, LeU16, LeU32, LeU48, LeU56, LeU64, MyDeserialize, ParseBuf, RawBytes,
    RawConst, RawFlags, RawInt, Skip, ValueList,
};

#[test]
fn fields_of_one_length_state_their_sizes() {
    let sizes = [
        (RawInt::<u8>::SIZE, 1),
        (RawInt::<i8>::SIZE, 1),
        (RawInt::<LeU16>::SIZE, 2),
        (RawInt::<LeU32>::SIZE, 4),
        (RawInt::<LeU48>::SIZE, 6),
        (RawInt::<LeU56>::SIZE, 7),
        (RawInt::<LeU64>::SIZE, 8),
        (Skip::<3>::SIZE, 3),
        (Const::<IntvarEventType, u8>::SIZE, 1),
        (RawConst::<LeU16, IntvarEventType>::SIZE, 2),
        (RawFlags::<EventFlags, LeU16>::SIZE, 2),
    ];
    for (size, wanted) in sizes {
        assert_eq!(size, Some(wanted));
    }
}

#[test]
fn fields_whose_lengths_differ_state_no_size() {
    assert_eq!(RawBytes::<EofBytes>::SIZE, None);
    assert_eq!(ParseBuf::SIZE, None);
    assert_eq!(ValueList::<GnoInterval>::SIZE, None);
}

#[test]
fn a_default_integer_is_zero() {
    assert_eq!(RawInt::<LeU64>::default().0, 0);
}

#[test]
fn flags_are_those_that_are_known() {
    let event_flags = RawFlags::<EventFlags, LeU16>::new(0xfc81).get();
    assert_eq!(event_flags.bits(), 0x81);
    let rows_flags = RawFlags::<RowsEventFlags, LeU16>::new(0xfff1).get();
    assert_eq!(rows_flags, RowsEventFlags::STMT_END);
    let variable_flags = RawFlags::<UserVarFlags, u8>::new(0xff).get();
    assert_eq!(variable_flags, UserVarFlags::UNSIGNED);
}

#[test]
fn signed_integers_are_written_and_read() {
    for (number, bytes) in [(-1, &b"\x02"[..]), (1, b"\x04"), (i64::MIN, &[0xff; 9])] {
        let mut written = Vec::new();
        write_varlen_int(&mut written, number).unwrap();
        assert_eq!(written, bytes);
        assert_eq!(read_varlen_int(&mut ParseBuf(bytes)), Ok(number));
    }
}

#[test]
fn integers_take_few_bytes() {
    for (number, size) in [(127, 1), (128, 2), ((1 << 56) - 1, 8), (1 << 56, 9)] {
        assert_eq!(varlen_uint_size(number), size);
    }
    assert_eq!(lenenc_int_len(65_535), 3);
    assert_eq!(lenenc_int_len(65_536), 4);
}
