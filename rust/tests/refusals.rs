//! Each of the rules' refusals, with its condition, and that nothing is changed by it.

mod support;

use oxenhush::{ChannelId, Channels, Error, Peer, Stopped};
use std::error::Error as _;
use support::{bytes, opened, TWO};

const NINE: ChannelId = ChannelId(9);
const PEER: Peer = Peer { channel: 8, window_size: 5, maxpacket: 3 };

/// A call whose value does not matter here.
type Call = fn(&mut Channels) -> Result<(), Error>;

/// The call is refused so, and every byte is as before.
fn refused(channels: &Channels, error: Error, call: Call) {
    let mut after = channels.clone();
    assert_eq!(call(&mut after), Err(error));
    assert!(after == *channels, "{error}");
}

#[test]
fn state() {
    let all: [Call; 19] = [
        |c| c.new_channel(64, 32).map(drop),
        |c| c.new_channel_id().map(drop),
        |c| c.open_for_peer(TWO, PEER, 64, 32),
        |c| c.data(TWO, b"a", false).map(drop),
        |c| c.data_with_writer(TWO, b"a", false).map(drop),
        |c| c.extended_data(TWO, 1, b"a", false).map(drop),
        |c| c.extended_data_with_writer(TWO, 1, b"a", false).map(drop),
        |c| c.eof(TWO),
        |c| c.close(TWO),
        |c| c.adjust_window_size(TWO, 1, 64).map(drop),
        |c| c.sender_window_size(TWO).map(drop),
        |c| c.has_pending_data(TWO).map(drop),
        |c| c.flush_pending(TWO).map(drop),
        |c| c.flush_pending_with_writer(TWO, false).map(drop),
        |c| Ok(c.flush_all_pending()?),
        |c| Ok(c.flush_all_pending_with_writer(false)?),
        |c| c.flush(false).map(drop),
        |c| c.drain(),
        |c| c.incoming(b"").map(drop),
    ];
    for sizes in [[65_537, 0, 0], [0, 65_537, 0], [0, 0, 65_537], [70_000, 70_000, 70_000]] {
        for call in all {
            refused(&Channels::new(sizes[0], sizes[1], sizes[2]), Error::State, call);
        }
    }
    let stopped = Stopped { channel: None, error: Error::State };
    assert_eq!(Channels::new(65_537, 0, 0).flush_all_pending(), Err(stopped));
    assert_eq!(stopped.to_string(), "the flush of all channels tried no channel");
}

#[test]
fn unknown() {
    let all: [Call; 14] = [
        |c| c.data(NINE, b"a", false).map(drop),
        |c| c.data_with_writer(NINE, b"", true).map(drop),
        |c| c.extended_data(NINE, 1, b"a", false).map(drop),
        |c| c.extended_data_with_writer(NINE, 1, b"a", false).map(drop),
        |c| c.eof(NINE),
        |c| c.close(NINE),
        |c| c.adjust_window_size(NINE, 1, 64).map(drop),
        |c| c.flush_pending(NINE).map(drop),
        |c| c.flush_pending_with_writer(NINE, false).map(drop),
        |c| c.incoming(&bytes("5b 00000009 00000008 00000005 00000003")).map(drop),
        |c| c.incoming(&bytes("5c 00000009 00000001 00000000 00000000")).map(drop),
        |c| c.incoming(&bytes("5d 00000009 00000001")).map(drop),
        |c| c.incoming(&bytes("60 00000009")).map(drop),
        |c| c.incoming(&bytes("61 00000009")).map(drop),
    ];
    for call in all {
        refused(&opened([64, 64, 64], 5, 3), Error::Unknown, call);
    }
}

#[test]
fn unconfirmed() {
    let all: [Call; 12] = [
        |c| c.data(TWO, b"a", false).map(drop),
        |c| c.data_with_writer(TWO, b"", true).map(drop),
        |c| c.extended_data(TWO, 1, b"a", false).map(drop),
        |c| c.extended_data_with_writer(TWO, 1, b"a", false).map(drop),
        |c| c.eof(TWO),
        |c| c.close(TWO),
        |c| c.adjust_window_size(TWO, 1, 64).map(drop),
        |c| c.incoming(&bytes("5d 00000002 00000001")).map(drop),
        |c| c.incoming(&bytes("5e 00000002 00000001 61")).map(drop),
        |c| c.incoming(&bytes("5f 00000002 00000001 00000001 61")).map(drop),
        |c| c.incoming(&bytes("60 00000002")).map(drop),
        |c| c.incoming(&bytes("61 00000002")).map(drop),
    ];
    let mut channels = Channels::new(64, 64, 64);
    assert_eq!(channels.new_channel(64, 32), Ok(TWO));
    for call in all {
        refused(&channels, Error::Unconfirmed, call);
    }
}

#[test]
fn limit() {
    let mut channels = opened([64, 64, 64], 5, 0);
    refused(&channels, Error::Limit, |c| c.data(TWO, b"a", false).map(drop));
    refused(&channels, Error::Limit, |c| c.extended_data_with_writer(TWO, 1, b"a", false).map(drop));
    channels.data(TWO, b"a", true).unwrap();
    refused(&channels, Error::Limit, |c| c.flush_pending(TWO).map(drop));
    refused(&channels, Error::Limit, |c| c.flush_pending_with_writer(TWO, false).map(drop));
}

#[test]
fn room() {
    // Nothing is charged for what finds no room: five bytes would be framed, and three queued.
    let eight: Call = |c| c.data(TWO, b"abcdefgh", false).map(drop);
    refused(&opened([3, 30, 0], 5, 3), Error::Room, eight);
    refused(&opened([2, 31, 0], 5, 3), Error::Room, eight);
    refused(&opened([0, 8, 0], 5, 3), Error::Room, |c| c.eof(TWO));
    refused(&opened([0, 8, 0], 5, 3), Error::Room, |c| c.incoming(&bytes("61 00000002")).map(drop));
}

#[test]
fn credit() {
    refused(&opened([0, 0, 0], 4_294_967_290, 3), Error::Credit, |c| c.incoming(&bytes("5d 00000002 00000006")).map(drop));
}

#[test]
fn malformed() {
    let payloads = ["", "00", "5a", "62 00000002", "60 000002", "60 00000002 00", "5d 00000002 00000001 00", "5e 00000002 00000002 61"];
    for payload in payloads {
        let channels = opened([64, 64, 64], 5, 3);
        let mut after = channels.clone();
        assert_eq!(after.incoming(&bytes(payload)), Err(Error::Malformed), "{payload}");
        assert!(after == channels, "{payload}");
    }
}

#[test]
fn already() {
    let channels = opened([64, 64, 64], 5, 3);
    refused(&channels, Error::Already, |c| c.open_for_peer(TWO, PEER, 64, 32));
    refused(&channels, Error::Already, |c| c.incoming(&bytes("5b 00000002 00000008 00000005 00000003")).map(drop));
    refused(&channels, Error::Already, |c| c.incoming(&bytes("5c 00000002 00000001 00000000 00000000")).map(drop));
}

#[test]
fn numbers_and_words() {
    use Error::*;
    let all = [State, Unknown, Unconfirmed, Limit, Room, Credit, Malformed, Already];
    assert_eq!(all.map(Error::number), [1, 2, 3, 4, 5, 6, 7, 8]);
    let mut words: Vec<String> = all.iter().map(Error::to_string).collect();
    words.sort();
    words.dedup();
    assert_eq!(words.len(), 8);
    let stopped = Stopped { channel: Some(TWO), error: Limit };
    assert_eq!(stopped.to_string(), "the flush of all channels stopped at channel 2");
    assert_eq!(stopped.source().unwrap().to_string(), Limit.to_string());
    assert_eq!(Error::from(stopped), Limit);
}
