//! The three buffers at 0 bytes, exactly full, and one byte short.

mod support;

use oxenhush::{ChannelFlushResult, ChannelId, Channels, Error, Flushed};
use support::{bytes, opened, TWO};

#[test]
fn none_has_a_byte() {
    let mut channels = opened([0, 0, 0], 5, 3);
    assert_eq!(channels.data(TWO, b"a", false), Err(Error::Room));
    assert_eq!(channels.data_with_writer(TWO, b"a", false), Err(Error::Room));
    assert_eq!(channels.data(TWO, b"a", true), Err(Error::Room));
    assert_eq!((channels.eof(TWO), channels.close(TWO)), (Err(Error::Room), Err(Error::Room)));
    assert_eq!(channels.adjust_window_size(TWO, 33, 64), Err(Error::Room));
    assert_eq!(channels.incoming(&bytes("61 00000002")), Err(Error::Room));
    // What needs no byte is done.
    assert_eq!(channels.adjust_window_size(TWO, 32, 64), Ok(false));
    assert_eq!((channels.data(TWO, b"", false), channels.data(TWO, b"", true)), (Ok(0), Ok(0)));
    assert_eq!(channels.has_pending_data(TWO), Ok(true));
    assert_eq!((channels.flush_all_pending(), channels.has_pending_data(TWO)), (Ok(()), Ok(false)));
    assert_eq!((channels.flush(false), channels.drain()), (Ok(Flushed::Moved { frames: 0, bytes: 0 }), Ok(())));
    assert_eq!(channels.new_channel(64, 32), Ok(ChannelId(3)));
    assert!(channels.incoming(&bytes("60 00000002")).is_ok());
    assert_eq!((channels.queue(), channels.staged(), channels.sent()), (&[][..], &[][..], &[][..]));
}

#[test]
fn staged() {
    // What is staged, and its bytes.
    type Call = fn(&mut Channels) -> Result<(), Error>;
    let calls: [(Call, usize); 7] = [
        (|c| c.data(TWO, b"abc", false).map(drop), 16),
        (|c| c.extended_data(TWO, 1, b"abc", false).map(drop), 20),
        (|c| c.data(TWO, b"abcde", false).map(drop), 31),
        (|c| c.eof(TWO), 9),
        (|c| c.close(TWO), 9),
        (|c| c.adjust_window_size(TWO, 33, 64).map(drop), 13),
        (|c| c.incoming(&bytes("61 00000002")).map(drop), 9),
    ];
    for (call, size) in calls {
        let mut full = opened([0, size, 0], 5, 3);
        assert_eq!((call(&mut full), full.staged().len()), (Ok(()), size));
        let short = opened([0, size - 1, 0], 5, 3);
        let mut after = short.clone();
        assert_eq!(call(&mut after), Err(Error::Room));
        assert_eq!(after, short);
    }
}

#[test]
fn sent() {
    let mut full = opened([0, 0, 16], 5, 3);
    assert_eq!((full.data_with_writer(TWO, b"abc", false), full.sent().len()), (Ok(3), 16));
    let mut short = opened([0, 0, 15], 5, 3);
    let before = short.clone();
    assert_eq!(short.data_with_writer(TWO, b"abc", false), Err(Error::Room));
    assert_eq!(short, before);
}

#[test]
fn queue() {
    let mut full = opened([3, 31, 0], 5, 3);
    assert_eq!((full.data(TWO, b"abcdefgh", false), full.queue()), (Ok(5), &b"fgh"[..]));
    let mut short = opened([2, 31, 0], 5, 3);
    let before = short.clone();
    assert_eq!(short.data(TWO, b"abcdefgh", false), Err(Error::Room));
    assert_eq!(short, before);
    // Queued whole.
    assert_eq!((short.data(TWO, b"ab", true), short.queue()), (Ok(0), &b"ab"[..]));
    assert_eq!((short.data(TWO, b"c", true), short.data(TWO, b"", true)), (Err(Error::Room), Ok(0)));
}

#[test]
fn a_staged_flush_moves_what_fits() {
    for (size, moved) in [(15, 0), (16, 1), (30, 1), (31, 2)] {
        let mut channels = opened([0, 31, size], 5, 3);
        channels.data(TWO, b"abcde", false).unwrap();
        let bytes = [0, 16, 31][moved];
        assert_eq!(channels.flush(false), Ok(Flushed::Moved { frames: moved, bytes }));
        assert_eq!((channels.sent().len(), channels.staged().len()), (bytes, 31 - bytes));
        assert_eq!((channels.drain(), channels.sent()), (Ok(()), &[][..]));
    }
}

#[test]
fn a_pending_flush_needs_room_for_all_of_it() {
    // Two packets of 16 and 15 bytes, then EOF and CLOSE of 9 each, which are always staged.
    for (sent, staged, fits) in [(31, 18, true), (30, 18, false), (31, 17, false)] {
        let mut channels = opened([5, staged, sent], 5, 3);
        channels.data(TWO, b"abcde", true).unwrap();
        channels.eof(TWO).unwrap();
        channels.close(TWO).unwrap();
        let before = channels.clone();
        let answer = channels.flush_pending_with_writer(TWO, false);
        if fits {
            assert_eq!(answer, Ok(ChannelFlushResult::Complete { wrote: 5, pending_eof: true, pending_close: true }));
            assert_eq!((channels.sent().len(), channels.staged().len(), channels.queue().len()), (31, 18, 0));
        } else {
            assert_eq!((answer, &channels), (Err(Error::Room), &before));
        }
    }
}

#[test]
fn the_longest() {
    let most = 65_536;
    let all = vec![0x61; most + 1];
    // One packet that fills staged, or sent; one byte more does not fit.
    let mut channels = opened([most, most, most], u32::MAX, u32::MAX);
    assert_eq!(channels.data(TWO, &all[..most - 12], false), Err(Error::Room));
    assert_eq!(channels.data_with_writer(TWO, &all[..most - 12], false), Err(Error::Room));
    assert_eq!(channels.data_with_writer(TWO, &all[..most - 13], false), Ok(most - 13));
    assert_eq!(channels.data(TWO, &all[..most - 13], false), Ok(most - 13));
    assert_eq!((channels.sent().len(), channels.staged().len()), (most, most));
    assert_eq!(channels.eof(TWO), Err(Error::Room));
    // The queue.
    assert_eq!(channels.data(TWO, &all, true), Err(Error::Room));
    assert_eq!(channels.data(TWO, &all[..most], true), Ok(0));
    assert_eq!((channels.queue().len(), channels.data(TWO, b"a", true)), (most, Err(Error::Room)));
    // One byte more in any buffer, and no call is taken.
    for sizes in [[most + 1, most, most], [most, most + 1, most], [most, most, most + 1]] {
        assert_eq!(Channels::new(sizes[0], sizes[1], sizes[2]).new_channel(64, 32), Err(Error::State));
    }
}
