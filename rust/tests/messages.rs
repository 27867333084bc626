//! Each message of the peer's, read and acted on, in the rules' form.

mod support;

use oxenhush::{Channel, ChannelId, Channels, Error, Message, Peer};
use support::{bytes, opened, TWO};

/// The messages, by number; the strings are `why` and `en`, and `abc`.
const OPEN_CONFIRMATION: &str = "5b 00000002 00000007 00000005 00000003";
const OPEN_FAILURE: &str = "5c 00000002 00000001 00000003 776879 00000002 656e";
const WINDOW_ADJUST: &str = "5d 00000002 00000003";
const DATA: &str = "5e 00000002 00000003 616263";
const EXTENDED_DATA: &str = "5f 00000002 00000001 00000003 616263";
const EOF: &str = "60 00000002";
const CLOSE: &str = "61 00000002";

/// Channel 2 opened at our end and not confirmed.
fn asked() -> Channels {
    let mut channels = Channels::new(64, 64, 64);
    assert_eq!(channels.new_channel(64, 32), Ok(TWO));
    channels
}

/// Channel 2 as the table has it.
fn two(channels: &Channels) -> Channel {
    channels.channels().find(|c| c.sender_channel == TWO).unwrap()
}

#[test]
fn open_confirmation() {
    for tail in ["", "00", "ffffffff"] {
        let mut channels = asked();
        let payload = bytes(&[OPEN_CONFIRMATION, tail].concat());
        let peer = Peer { channel: 7, window_size: 5, maxpacket: 3 };
        assert_eq!(channels.incoming(&payload), Ok(Message::OpenConfirmation { channel: TWO, peer }));
        let confirmed = Channel {
            recipient_channel: 7,
            sender_channel: TWO,
            recipient_window_size: 5,
            sender_window_size: 64,
            recipient_maximum_packet_size: 3,
            sender_maximum_packet_size: 32,
            confirmed: true,
            wants_reply: false,
            pending_eof: false,
            pending_close: false,
        };
        assert_eq!(two(&channels), confirmed);
        assert_eq!(two(&opened([64, 64, 64], 5, 3)), confirmed);
    }
}

#[test]
fn open_failure() {
    let mut channels = asked();
    let payload = bytes(OPEN_FAILURE);
    let message = channels.incoming(&payload).unwrap();
    assert_eq!(message, Message::OpenFailure { channel: TWO, reason: 1, description: b"why", language: b"en" });
    assert_eq!(channels.channels().count(), 0);
    // The place and the number are free; the next number is another one.
    assert_eq!(channels.new_channel(64, 32), Ok(ChannelId(3)));
}

#[test]
fn window_adjust() {
    let mut channels = opened([64, 64, 64], 5, 3);
    let before = two(&channels);
    assert_eq!(channels.incoming(&bytes(WINDOW_ADJUST)), Ok(Message::WindowAdjust { channel: TWO, add: 3 }));
    assert_eq!(two(&channels), Channel { recipient_window_size: 8, ..before });
}

#[test]
fn data_and_eof_alter_nothing() {
    let mut channels = opened([64, 64, 64], 5, 3);
    let before = channels.clone();
    assert_eq!(channels.incoming(&bytes(DATA)), Ok(Message::Data { channel: TWO, ext: None, data: b"abc" }));
    assert_eq!(channels.incoming(&bytes(EXTENDED_DATA)), Ok(Message::Data { channel: TWO, ext: Some(1), data: b"abc" }));
    assert_eq!(channels.incoming(&bytes("5e 00000002 00000000")), Ok(Message::Data { channel: TWO, ext: None, data: b"" }));
    assert_eq!(channels.incoming(&bytes(EOF)), Ok(Message::Eof { channel: TWO }));
    assert_eq!(channels, before);
}

#[test]
fn close() {
    let mut channels = opened([64, 64, 64], 5, 3);
    channels.data(TWO, b"abc", true).unwrap();
    assert_eq!(channels.incoming(&bytes(CLOSE)), Ok(Message::Close { channel: TWO }));
    assert_eq!(channels.staged(), bytes("00000005 61 00000007"));
    assert_eq!((channels.channels().count(), channels.pending().count(), channels.queue()), (0, 0, &[][..]));
}

#[test]
fn cut_short_or_too_long() {
    for whole in [OPEN_CONFIRMATION, OPEN_FAILURE, WINDOW_ADJUST, DATA, EXTENDED_DATA, EOF, CLOSE] {
        let payload = bytes(whole);
        for channels in [asked(), opened([64, 64, 64], 5, 3)] {
            for end in 0..payload.len() {
                assert_eq!(channels.clone().incoming(&payload[..end]), Err(Error::Malformed), "{whole}, {end} bytes");
            }
            let longer = channels.clone().incoming(&[&payload[..], &[0]].concat()).map(|m| m.channel());
            assert_eq!(longer == Err(Error::Malformed), whole != OPEN_CONFIRMATION, "{whole} and a byte");
        }
    }
}

#[test]
fn for_a_channel() {
    for whole in [WINDOW_ADJUST, DATA, EXTENDED_DATA, EOF, CLOSE] {
        assert_eq!(opened([64, 64, 64], 5, 3).incoming(&bytes(whole)).map(|m| m.channel()), Ok(TWO));
    }
}
