//! The rules' cases that need a table which no call makes.

use crate::ffi::{self, Entry, Record, Table};

/// The number that the table picks next.
fn pick(t: &mut Table) -> u64 {
    let answer = ffi::new_channel(t, &[], &[], &[], 64, 32);
    assert_eq!((answer.refusal, answer.count), (0, 1));
    answer.values[0]
}

#[test]
fn the_empty_table() {
    let zero = Table {
        used: 0,
        last: 1,
        records: [Record::default(); 32],
        entries: [Entry::default(); 64],
        entry_count: 0,
        queue_used: 0,
        staged_used: 0,
        sent_used: 0,
    };
    let mut t = ffi::table_new();
    assert_eq!(t, zero);
    assert_eq!([pick(&mut t), pick(&mut t)], [2, 3]);
}

#[test]
fn numbers_go_round() {
    let mut t = ffi::table_new();
    t.last = u32::MAX;
    for number in [0, 1] {
        assert_eq!(ffi::open_for_peer(&mut t, &[], &[], &[], number, 7, 64, 32, 5, 3).refusal, 0);
    }
    assert_eq!(pick(&mut t), 2);
    assert_eq!(t.last, 2);
}
