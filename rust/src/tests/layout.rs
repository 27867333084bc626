//! The structs have the layout that C gives to the library's: four bytes for a u32, eight for a usize or u64, one for a bool, each aligned
//! to its size, in the order of `crates/channel/src/lib.rt`, `crates/answers/src/lib.rt` and `crates/exports/src/lib.rt`.

use crate::ffi::{table_new, Entry, Numbers, Record, Reply, StoredKind, Table};
use std::mem::{align_of, size_of};

/// The places of fields within a struct, in bytes.
macro_rules! offsets {
    ($whole:expr; $($field:ident),*) => {{
        let whole = &$whole;
        [$(std::ptr::addr_of!(whole.$field) as usize - whole as *const _ as usize),*]
    }};
}

#[test]
fn sizes() {
    assert_eq!([size_of::<Record>(), size_of::<Entry>(), size_of::<Table>()], [28, 16, 1960]);
    assert_eq!([size_of::<Numbers>(), size_of::<Reply>()], [64, 2024]);
    assert_eq!([align_of::<Record>(), align_of::<Entry>(), align_of::<Table>()], [4, 4, 8]);
    assert_eq!([align_of::<Numbers>(), align_of::<Reply>()], [8, 8]);
}

#[test]
fn a_record() {
    let r = Record::default();
    assert_eq!(offsets!(r; recipient_channel, sender_channel, recipient_window_size, sender_window_size), [0, 4, 8, 12]);
    assert_eq!(offsets!(r; recipient_maximum_packet_size, sender_maximum_packet_size), [16, 20]);
    assert_eq!(offsets!(r; confirmed, wants_reply, pending_eof, pending_close), [24, 25, 26, 27]);
}

#[test]
fn an_entry() {
    assert_eq!(offsets!(Entry::default(); number, kind, left), [0, 4, 12]);
    assert_eq!(offsets!(StoredKind::default(); extended, code), [0, 4]);
}

#[test]
fn a_table() {
    let t = table_new();
    assert_eq!(offsets!(t; used, last, records, entries), [0, 4, 8, 8 + 32 * 28]);
    assert_eq!(offsets!(t; entry_count, queue_used, staged_used, sent_used), [1928, 1936, 1944, 1952]);
}

#[test]
fn a_reply() {
    let answer = Numbers { refusal: 0, count: 0, values: [0; 7] };
    assert_eq!(offsets!(answer; refusal, count, values), [0, 4, 8]);
    assert_eq!(offsets!(Reply { answer, table: table_new() }; answer, table), [0, 64]);
}
