//! A state of the library, whole: what the rules call sound, and states drawn at random.

use super::random::Random;
use crate::ffi::{table_new, Entry, Record, StoredKind, Table};

/// The most bytes in a buffer of a sound state.
pub const MOST: usize = 65_536;

#[derive(Clone, PartialEq, Eq)]
pub struct State {
    pub table: Table,
    pub queue: Vec<u8>,
    pub staged: Vec<u8>,
    pub sent: Vec<u8>,
}

impl State {
    /// The records in use.
    pub fn used(&self) -> Vec<Record> {
        (0..32).filter(|i| self.table.used >> i & 1 == 1).map(|i| self.table.records[i]).collect()
    }

    /// The entries in use, as far as there are 64.
    fn pending(&self) -> &[Entry] {
        &self.table.entries[..self.table.entry_count.min(64)]
    }

    /// The rules' paragraph "A state is sound when", clause by clause.
    pub fn is_sound(&self) -> bool {
        self.counts_are_sound() && self.rest_is_zero() && self.channels_are_sound() && self.whole_frames()
    }

    /// No buffer is too long or its used count too large, and there are at most 64 entries.
    fn counts_are_sound(&self) -> bool {
        let t = &self.table;
        let buffers = [(&self.queue, t.queue_used), (&self.staged, t.staged_used), (&self.sent, t.sent_used)];
        t.entry_count <= 64 && buffers.iter().all(|(buffer, used)| buffer.len() <= MOST && *used <= buffer.len())
    }

    /// Unused places and entries are zero.
    fn rest_is_zero(&self) -> bool {
        let t = &self.table;
        let vacant = (0..32).filter(|i| t.used >> i & 1 == 0);
        vacant.into_iter().all(|i| t.records[i] == Record::default()) && t.entries[t.entry_count..].iter().all(|e| *e == Entry::default())
    }

    /// Used numbers are distinct; entries name confirmed records, and their lengths sum to the queue's used count; a mark stands only on a
    /// channel with an entry.
    fn channels_are_sound(&self) -> bool {
        let (used, pending) = (self.used(), self.pending());
        let mut numbers: Vec<u32> = used.iter().map(|r| r.sender_channel).collect();
        numbers.sort_unstable();
        numbers.dedup();
        let confirmed = |e: &Entry| used.iter().any(|r| r.sender_channel == e.number && r.confirmed);
        let marked = |r: &Record| r.pending_eof || r.pending_close;
        let waits = |r: &Record| pending.iter().any(|e| e.number == r.sender_channel);
        numbers.len() == used.len()
            && pending.iter().all(confirmed)
            && pending.iter().map(|e| e.left as usize).sum::<usize>() == self.table.queue_used
            && used.iter().all(|r| !marked(r) || waits(r))
    }

    /// Staged is whole frames, none empty.
    fn whole_frames(&self) -> bool {
        let mut rest = &self.staged[..self.table.staged_used];
        while rest.len() >= 4 {
            let length = u32::from_be_bytes([rest[0], rest[1], rest[2], rest[3]]) as usize;
            if length == 0 || length > rest.len() - 4 {
                return false;
            }
            rest = &rest[4 + length..];
        }
        rest.is_empty()
    }
}

/// Any record.
fn any_record(random: &mut Random) -> Record {
    Record {
        recipient_channel: random.number(),
        sender_channel: random.number(),
        recipient_window_size: random.number(),
        sender_window_size: random.number(),
        recipient_maximum_packet_size: random.number(),
        sender_maximum_packet_size: random.number(),
        confirmed: random.either(),
        wants_reply: random.either(),
        pending_eof: random.either(),
        pending_close: random.either(),
    }
}

/// Any entry.
fn any_entry(random: &mut Random) -> Entry {
    let kind = StoredKind { extended: random.either(), code: random.number() };
    Entry { number: random.number(), kind, left: random.number() }
}

/// Any numbers at all.
pub fn any_state(random: &mut Random) -> State {
    let mut table = table_new();
    table.used = random.next() as u32;
    table.last = random.number();
    table.records.iter_mut().for_each(|r| *r = any_record(random));
    table.entries.iter_mut().for_each(|e| *e = any_entry(random));
    table.entry_count = random.count();
    table.queue_used = random.count();
    table.staged_used = random.count();
    table.sent_used = random.count();
    let mut buffer = || {
        let length = random.length();
        random.bytes(length)
    };
    State { table, queue: buffer(), staged: buffer(), sent: buffer() }
}

/// Records at some places, with numbers that are distinct, and no mark.
fn put_records(random: &mut Random, table: &mut Table) {
    let (first, step) = (random.number(), random.one_of(&[1, 1, 3, 64]));
    let vacant = random.one_of(&[1, 2, 16, usize::MAX]);
    for place in 0..32 {
        if !random.once_in(vacant) {
            let sender_channel = first.wrapping_add(place as u32 * step);
            let confirmed = !random.once_in(4);
            table.used |= 1 << place;
            table.records[place] = Record { sender_channel, confirmed, pending_eof: false, pending_close: false, ..any_record(random) };
        }
    }
}

/// Entries for confirmed records, as far as the queue has room, and marks behind them.
fn put_entries(random: &mut Random, table: &mut Table, room: usize) {
    let places: Vec<usize> = (0..32).filter(|i| table.used >> i & 1 == 1 && table.records[*i].confirmed).collect();
    let most = random.one_of(&[0, 1, 3, 64]);
    while !places.is_empty() && table.entry_count < most {
        let record = &mut table.records[random.one_of(&places)];
        let most_left = random.one_of(&[1, 20, 2_000]).min(room - table.queue_used);
        let left = random.below(most_left + 1);
        record.pending_eof |= random.once_in(4);
        record.pending_close |= random.once_in(4);
        let number = record.sender_channel;
        table.entries[table.entry_count] = Entry { number, left: left as u32, ..any_entry(random) };
        table.entry_count += 1;
        table.queue_used += left;
    }
}

/// Whole frames in front of staged, none empty.
fn put_frames(random: &mut Random, table: &mut Table, staged: &mut [u8]) {
    for _ in 0..random.one_of(&[0, 0, 1, 9]) {
        let at = table.staged_used;
        let length = 1 + random.below(20);
        if at + 4 + length <= staged.len() {
            staged[at..at + 4].copy_from_slice(&(length as u32).to_be_bytes());
            table.staged_used += 4 + length;
        }
    }
}

/// A sound state, with kinds and codes in any form.
pub fn sound_state(random: &mut Random) -> State {
    let mut buffer = || {
        let length = random.length().min(MOST);
        random.bytes(length)
    };
    let (queue, mut staged, sent) = (buffer(), buffer(), buffer());
    let mut table = table_new();
    table.last = random.number();
    put_records(random, &mut table);
    put_entries(random, &mut table, queue.len());
    put_frames(random, &mut table, &mut staged);
    table.sent_used = random.below(sent.len() + 1);
    State { table, queue, staged, sent }
}

/// A sound state with one thing changed, which may leave it sound.
pub fn damaged_state(random: &mut Random) -> State {
    let mut state = sound_state(random);
    let (place, entry) = (random.below(32), random.below(64));
    let t = &mut state.table;
    match random.below(13) {
        0 => t.used ^= 1 << place,
        1 => t.records[place] = any_record(random),
        2 => t.records[place].sender_channel = t.records[random.below(32)].sender_channel,
        3 => t.records[place].confirmed ^= true,
        4 => t.records[place].pending_eof ^= true,
        5 => t.records[place].pending_close ^= true,
        6 => t.entries[entry] = any_entry(random),
        7 => t.entries[entry].left ^= 1,
        8 => t.entry_count = random.count(),
        9 => t.queue_used = random.count(),
        10 => t.staged_used = random.one_of(&[t.staged_used + 1, t.staged_used.wrapping_sub(1), usize::MAX]),
        11 => t.sent_used = random.count(),
        _ => state.staged.iter_mut().take(random.below(8)).for_each(|b| *b = 0),
    }
    if random.once_in(16) {
        let buffer = [&mut state.queue, &mut state.staged, &mut state.sent].into_iter().nth(random.below(3)).unwrap();
        buffer.resize(random.length(), 0);
    }
    state
}
