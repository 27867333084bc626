//! The rules' "Both sides of each edge", through the wrapper. (The case at the last number 4,294,967,295 is in `src/tests/numbers.rs`.)

mod support;

use oxenhush::{ChannelFlushResult, ChannelId, Channels, Error, Flushed, Peer, Pending, Stopped};
use support::{bytes, opened, TWO};

const SIZES: [usize; 3] = [64, 64, 64];

/// Channel 2 with a receive window, and a peer that takes anything.
fn receiving(window_size: u32) -> Channels {
    let mut channels = Channels::new(64, 64, 64);
    channels.open_for_peer(TWO, Peer { channel: 7, window_size: 100, maxpacket: 100 }, window_size, 32).unwrap();
    channels
}

#[test]
fn the_first_numbers() {
    let mut channels = Channels::new(0, 0, 0);
    assert_eq!(channels.new_channel(64, 32), Ok(ChannelId(2)));
    assert_eq!(channels.new_channel_id(), Ok(ChannelId(3)));
    assert_eq!(channels.new_channel(64, 32), Ok(ChannelId(4)));
    let numbers: Vec<ChannelId> = channels.channels().map(|c| c.sender_channel).collect();
    assert_eq!(numbers, [ChannelId(2), ChannelId(4)]);
}

#[test]
fn window_5_limit_3() {
    let mut channels = opened(SIZES, 5, 3);
    assert_eq!(channels.data(TWO, b"abcdefgh", false), Ok(5));
    let frames = bytes("0000000c 5e 00000007 00000003 616263 0000000b 5e 00000007 00000002 6465");
    assert_eq!((channels.staged(), frames.len()), (&frames[..], 31));
    assert_eq!(channels.queue(), b"fgh");
    assert_eq!(channels.pending().collect::<Vec<_>>(), [Pending { channel: TWO, ext: None, left: 3 }]);
    assert_eq!(channels.channels().next().unwrap().recipient_window_size, 0);
    assert_eq!(channels.flush(true), Ok(Flushed::Held));
    assert_eq!(channels.flush(false), Ok(Flushed::Moved { frames: 2, bytes: 31 }));
    assert_eq!((channels.staged(), channels.sent()), (&[][..], &frames[..]));
}

#[test]
fn straight_only_past_nothing_staged() {
    let mut channels = opened(SIZES, 5, 3);
    assert_eq!(channels.data_with_writer(TWO, b"ab", false), Ok(2));
    assert_eq!((channels.sent().len(), channels.staged().len()), (15, 0));
    channels.eof(TWO).unwrap();
    assert_eq!(channels.data_with_writer(TWO, b"cd", false), Ok(2));
    assert_eq!((channels.sent().len(), channels.staged().len()), (15, 9 + 15));
}

#[test]
fn window_0_limit_0() {
    let mut channels = opened(SIZES, 0, 0);
    assert_eq!(channels.data(TWO, b"a", false), Err(Error::Limit));
    assert_eq!(channels.data(TWO, b"a", true), Ok(0));
    assert_eq!(channels.queue(), b"a");
}

#[test]
fn empty_data() {
    let mut channels = opened(SIZES, 5, 3);
    let before = channels.clone();
    assert_eq!(channels.data(TWO, b"", false), Ok(0));
    assert_eq!(channels, before);
    assert_eq!(channels.has_pending_data(TWO), Ok(false));
    assert_eq!(channels.data(TWO, b"", true), Ok(0));
    assert_eq!(channels.pending().collect::<Vec<_>>(), [Pending { channel: TWO, ext: None, left: 0 }]);
    assert_eq!(channels.has_pending_data(TWO), Ok(true));
    assert_eq!(channels.flush_pending(TWO), Ok(ChannelFlushResult::Complete { wrote: 0, pending_eof: false, pending_close: false }));
    assert_eq!(channels, before);
}

#[test]
fn the_receive_window() {
    // Window, bytes, target; the window after, and what an adjust adds.
    let cases =
        [(64, 32, 64, 32, None), (64, 33, 64, 64, Some(33)), (0, 0, 1, 0, None), (10, 11, 20, 10, None), (10, 1, 20, 20, Some(11u32))];
    for (window, n, target, after, add) in cases {
        let mut channels = receiving(window);
        assert_eq!(channels.adjust_window_size(TWO, n, target), Ok(add.is_some()));
        assert_eq!(channels.sender_window_size(TWO), Ok(after));
        let adjust = add.map(|add| [bytes("00000009 5d 00000007"), add.to_be_bytes().to_vec()].concat());
        assert_eq!(channels.staged(), adjust.unwrap_or_default());
    }
}

#[test]
fn credit_up_to_the_highest() {
    let mut channels = opened(SIZES, 4_294_967_290, 3);
    assert_eq!(channels.incoming(&bytes("5d 00000002 00000006")), Err(Error::Credit));
    assert!(channels.incoming(&bytes("5d 00000002 00000005")).is_ok());
    assert_eq!(channels.channels().next().unwrap().recipient_window_size, u32::MAX);
}

#[test]
fn extended_data() {
    let mut channels = opened(SIZES, 5, 4);
    assert_eq!(channels.extended_data(TWO, 1, b"abcdef", false), Ok(5));
    assert_eq!(channels.staged()[..21], bytes("00000011 5f 00000007 00000001 00000004 61626364"));
    assert_eq!(channels.pending().collect::<Vec<_>>(), [Pending { channel: TWO, ext: Some(1), left: 1 }]);
    let mut straight = opened(SIZES, 5, 4);
    assert_eq!(straight.extended_data_with_writer(TWO, 1, b"abcdef", false), Ok(5));
    assert_eq!((straight.sent(), straight.staged().len()), (channels.staged(), 0));
}

#[test]
fn the_last_byte_with_both_marks() {
    let mut channels = opened(SIZES, 0, 3);
    assert_eq!(channels.data(TWO, b"a", false), Ok(0));
    assert_eq!((channels.eof(TWO), channels.close(TWO)), (Ok(()), Ok(())));
    assert_eq!(channels.flush_pending_with_writer(TWO, false), Ok(ChannelFlushResult::Incomplete { wrote: 0 }));
    channels.incoming(&bytes("5d 00000002 00000001")).unwrap();
    let complete = ChannelFlushResult::Complete { wrote: 1, pending_eof: true, pending_close: true };
    assert_eq!(channels.flush_pending_with_writer(TWO, false), Ok(complete));
    assert_eq!(channels.sent(), bytes("0000000a 5e 00000007 00000001 61"));
    assert_eq!(channels.staged(), bytes("00000005 60 00000007 00000005 61 00000007"));
    assert_eq!((channels.sent().len(), channels.staged().len(), channels.channels().count()), (14, 18, 0));
    assert_eq!(complete.wrote(), 1);
}

#[test]
fn one_mark() {
    let mut eof = opened(SIZES, 5, 3);
    assert_eq!((eof.data(TWO, b"a", true), eof.eof(TWO)), (Ok(0), Ok(())));
    assert_eq!(eof.channels().map(|c| (c.pending_eof, c.pending_close)).collect::<Vec<_>>(), [(true, false)]);
    assert_eq!(eof.flush_pending(TWO), Ok(ChannelFlushResult::Complete { wrote: 1, pending_eof: true, pending_close: false }));
    assert_eq!(eof.staged(), bytes("0000000a 5e 00000007 00000001 61 00000005 60 00000007"));
    let mut close = opened(SIZES, 5, 3);
    assert_eq!((close.data(TWO, b"a", true), close.close(TWO)), (Ok(0), Ok(())));
    assert_eq!(close.flush_pending(TWO), Ok(ChannelFlushResult::Complete { wrote: 1, pending_eof: false, pending_close: true }));
    assert_eq!(close.staged(), bytes("0000000a 5e 00000007 00000001 61 00000005 61 00000007"));
    assert_eq!((eof.channels().count(), close.channels().count()), (1, 0));
}

#[test]
fn a_flush_of_all_stops() {
    let mut channels = opened(SIZES, 5, 0);
    channels.open_for_peer(ChannelId(3), Peer { channel: 8, window_size: 5, maxpacket: 3 }, 64, 32).unwrap();
    for channel in [TWO, ChannelId(3)] {
        assert_eq!(channels.data(channel, b"a", true), Ok(0));
    }
    let before = channels.clone();
    let stopped = Stopped { channel: Some(TWO), error: Error::Limit };
    assert_eq!(channels.flush_all_pending(), Err(stopped));
    assert_eq!(channels.flush_all_pending_with_writer(false), Err(stopped));
    assert_eq!(channels, before);
}

#[test]
fn a_flush_of_all_keeps_what_it_did() {
    let mut channels = opened(SIZES, 5, 3);
    channels.open_for_peer(ChannelId(3), Peer { channel: 8, window_size: 5, maxpacket: 0 }, 64, 32).unwrap();
    for channel in [ChannelId(3), TWO] {
        assert_eq!(channels.data(channel, b"a", true), Ok(0));
    }
    assert_eq!(channels.flush_all_pending(), Err(Stopped { channel: Some(ChannelId(3)), error: Error::Limit }));
    assert_eq!(channels.staged(), bytes("0000000a 5e 00000007 00000001 61"));
    assert_eq!(channels.pending().collect::<Vec<_>>(), [Pending { channel: ChannelId(3), ext: None, left: 1 }]);
}

#[test]
fn the_33rd_opening() {
    let mut channels = Channels::new(0, 0, 0);
    for number in 2..34 {
        assert_eq!(channels.new_channel(64, 32), Ok(ChannelId(number)));
    }
    let before = channels.clone();
    assert_eq!(channels.new_channel(64, 32), Err(Error::Room));
    assert_eq!(channels.new_channel_id(), Err(Error::Room));
    assert_eq!(channels.open_for_peer(ChannelId(34), Peer { channel: 7, window_size: 5, maxpacket: 3 }, 64, 32), Err(Error::Room));
    assert_eq!(channels, before);
}

#[test]
fn a_queue_for_each_entry_and_64_in_all() {
    let mut channels = opened(SIZES, 5, 3);
    for _ in 0..64 {
        assert_eq!(channels.data(TWO, b"a", true), Ok(0));
    }
    assert_eq!((channels.pending().count(), channels.queue().len()), (64, 64));
    assert_eq!(channels.data(TWO, b"", true), Err(Error::Room));
}

#[test]
fn queries_of_an_unknown_number() {
    let channels = opened(SIZES, 5, 3);
    assert_eq!((channels.sender_window_size(TWO), channels.has_pending_data(TWO)), (Ok(64), Ok(false)));
    assert_eq!((channels.sender_window_size(ChannelId(9)), channels.has_pending_data(ChannelId(9))), (Ok(0), Ok(false)));
}
