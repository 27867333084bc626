//! The exported functions of the proved library and the structs that they take and give. All of the crate's `unsafe` is here.
//!
//! What the library asks of a caller (`crates/exports/src/lib.rt`), and why every argument of a safe function below keeps it:
//! - a slice's pointer is not null and its bytes are there during the call: both are a Rust slice's;
//! - a buffer lent as `&mut` overlaps no other buffer of the call: Rust's borrows see to it;
//! - a bool is 0 or 1, also within the table: it is a Rust bool;
//! - the structs have C's layout with the library's order of fields: they are `repr(C)`, and a test holds the sizes and offsets.
//!
//! Nothing more is relied on: the functions are proved for every value of every number, and for every length.

/// One channel.
#[repr(C)]
#[derive(Clone, Copy, Debug, Default, PartialEq, Eq)]
pub struct Record {
    pub recipient_channel: u32,
    pub sender_channel: u32,
    pub recipient_window_size: u32,
    pub sender_window_size: u32,
    pub recipient_maximum_packet_size: u32,
    pub sender_maximum_packet_size: u32,
    pub confirmed: bool,
    pub wants_reply: bool,
    pub pending_eof: bool,
    pub pending_close: bool,
}

/// Which data an entry holds: plain, whatever the code, or extended with a code.
#[repr(C)]
#[derive(Clone, Copy, Debug, Default, PartialEq, Eq)]
pub struct StoredKind {
    pub extended: bool,
    pub code: u32,
}

/// One pending entry.
#[repr(C)]
#[derive(Clone, Copy, Debug, Default, PartialEq, Eq)]
pub struct Entry {
    pub number: u32,
    pub kind: StoredKind,
    pub left: u32,
}

/// The whole table: bit i of `used` says whether place i holds a record, and the last three counts are those of the lent buffers.
#[repr(C)]
#[derive(Clone, Copy, Debug, PartialEq, Eq)]
pub struct Table {
    pub used: u32,
    pub last: u32,
    pub records: [Record; 32],
    pub entries: [Entry; 64],
    pub entry_count: usize,
    pub queue_used: usize,
    pub staged_used: usize,
    pub sent_used: usize,
}

/// What a call answers: the refusal's number, or 0, and the first `count` of the values; the others are 0.
#[repr(C)]
#[derive(Clone, Copy, Debug, PartialEq, Eq)]
pub struct Numbers {
    pub refusal: u32,
    pub count: u32,
    pub values: [u64; 7],
}

/// What every call gives back but a query, which gives the answer alone.
#[repr(C)]
pub struct Reply {
    pub answer: Numbers,
    pub table: Table,
}

/// How a buffer is lent to a safe function: `mut` if the call may change it.
#[rustfmt::skip]
macro_rules! slice {
    (mut) => { &mut [u8] };
    (ref) => { &[u8] };
}

/// The same buffer's pointer, as the library takes it.
#[rustfmt::skip]
macro_rules! pointer {
    (mut) => { *mut u8 };
    (ref) => { *const u8 };
    (mut $slice:ident) => { $slice.as_mut_ptr() };
    (ref $slice:ident) => { $slice.as_ptr() };
}

/// A query, `ref`, only reads the table and gives its answer; any other call, `mut`, gives a reply, whose table takes the old one's place.
#[rustfmt::skip]
macro_rules! table {
    (mut) => { &mut Table };
    (ref) => { &Table };
    (mut $table:ident $reply:ident) => {{ *$table = $reply.table; $reply.answer }};
    (ref $table:ident $answer:ident) => { $answer };
}

/// What the library gives.
#[rustfmt::skip]
macro_rules! given {
    (mut) => { Reply };
    (ref) => { Numbers };
}

/// Declares exported functions and writes a safe function over each. A line has the table's borrow, those of queue, staged and sent, the
/// numbers, and, where the call takes bytes of the caller's, `; bytes` and what follows it. Each slice is passed as pointer and length.
macro_rules! calls {
    ($(
        $call:ident = $export:ident($table:tt; $queue:tt, $staged:tt, $sent:tt $(, $number:ident: $type:ty)*
        $(; $bytes:ident $(, $rekey:ident: $yes_or_no:ty)?)?);
    )*) => {
        extern "C" {
            $(fn $export(
                t: Table,
                queue: pointer!($queue), queue_len: usize,
                staged: pointer!($staged), staged_len: usize,
                sent: pointer!($sent), sent_len: usize
                $(, $number: $type)*
                $(, $bytes: *const u8, bytes_len: usize $(, $rekey: $yes_or_no)?)?
            ) -> given!($table);)*
        }
        $(
            #[inline]
            #[allow(clippy::too_many_arguments)]
            pub fn $call(
                t: table!($table),
                queue: slice!($queue),
                staged: slice!($staged),
                sent: slice!($sent)
                $(, $number: $type)*
                $(, $bytes: &[u8] $(, $rekey: $yes_or_no)?)?
            ) -> Numbers {
                // SAFETY: the arguments keep what the library asks, as said at the top of this file.
                let given = unsafe {
                    $export(
                        *t,
                        pointer!($queue queue), queue.len(),
                        pointer!($staged staged), staged.len(),
                        pointer!($sent sent), sent.len()
                        $(, $number)*
                        $(, $bytes.as_ptr(), $bytes.len() $(, $rekey)?)?
                    )
                };
                table!($table t given)
            }
        )*
    };
}

calls! {
    new_channel = oxenhush_new_channel(mut; ref, ref, ref, window_size: u32, maxpacket: u32);
    new_channel_id = oxenhush_new_channel_id(mut; ref, ref, ref);
    open_for_peer = oxenhush_open_for_peer(mut; ref, ref, ref, number: u32, peer: u32, window_size: u32, maxpacket: u32,
        peer_window: u32, peer_maxpacket: u32);
    data = oxenhush_data(mut; mut, mut, ref, number: u32; buf, rekey: bool);
    data_with_writer = oxenhush_data_with_writer(mut; mut, mut, mut, number: u32; buf, rekey: bool);
    extended_data = oxenhush_extended_data(mut; mut, mut, ref, number: u32, ext: u32; buf, rekey: bool);
    extended_data_with_writer = oxenhush_extended_data_with_writer(mut; mut, mut, mut, number: u32, ext: u32; buf, rekey: bool);
    eof = oxenhush_eof(mut; ref, mut, ref, number: u32);
    close = oxenhush_close(mut; ref, mut, ref, number: u32);
    adjust_window_size = oxenhush_adjust_window_size(mut; ref, mut, ref, number: u32, n: u32, target: u32);
    sender_window_size = oxenhush_sender_window_size(ref; ref, ref, ref, number: u32);
    has_pending_data = oxenhush_has_pending_data(ref; ref, ref, ref, number: u32);
    flush_pending = oxenhush_flush_pending(mut; mut, mut, ref, number: u32);
    flush_pending_with_writer = oxenhush_flush_pending_with_writer(mut; mut, mut, mut, number: u32, rekey: bool);
    flush_all_pending = oxenhush_flush_all_pending(mut; mut, mut, ref);
    flush_all_pending_with_writer = oxenhush_flush_all_pending_with_writer(mut; mut, mut, mut, rekey: bool);
    flush = oxenhush_flush(mut; ref, mut, mut, rekey: bool);
    drain = oxenhush_drain(mut; ref, ref, mut);
    incoming = oxenhush_incoming(mut; mut, mut, ref; payload);
}

extern "C" {
    fn oxenhush_table_new() -> Table;
}

/// The empty table.
pub fn table_new() -> Table {
    // SAFETY: it takes nothing.
    unsafe { oxenhush_table_new() }
}
