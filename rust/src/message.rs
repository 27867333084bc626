//! What a peer says of a channel.

use crate::{ChannelId, Peer};

/// A message of the peer's: RFC 4254's messages 91 to 97. Its strings are slices of the payload that was read.
#[derive(Clone, Copy, Debug, PartialEq, Eq, Hash)]
pub enum Message<'a> {
    /// 91: the peer opened its end. The channel is confirmed now, with what the peer says of its end.
    OpenConfirmation {
        /// The channel, by our number.
        channel: ChannelId,
        /// The peer's number for it, and the window and packet limit that it gives us.
        peer: Peer,
    },
    /// 92: the peer will not open the channel. It is gone from the table.
    OpenFailure {
        /// The channel, by our number.
        channel: ChannelId,
        /// RFC 4254's reason code.
        reason: u32,
        /// Why, in the peer's words: UTF-8 if the peer keeps to RFC 4254, which is not tested.
        description: &'a [u8],
        /// The language of the description.
        language: &'a [u8],
    },
    /// 93: the peer takes so many bytes more. They are in the channel's `recipient_window_size` now.
    WindowAdjust {
        /// The channel, by our number.
        channel: ChannelId,
        /// The bytes that were added.
        add: u32,
    },
    /// 94, or 95 with a code. The receive window is not charged yet: [`adjust_window_size`](crate::Channels::adjust_window_size) does that.
    Data {
        /// The channel, by our number.
        channel: ChannelId,
        /// The code of extended data (1 is standard error); none for plain data.
        ext: Option<u32>,
        /// The bytes.
        data: &'a [u8],
    },
    /// 96: no more data will come from the peer.
    Eof {
        /// The channel, by our number.
        channel: ChannelId,
    },
    /// 97: the peer closed the channel. Our CLOSE is staged, and the channel and what it had pending are gone.
    Close {
        /// The channel, by our number.
        channel: ChannelId,
    },
}

impl<'a> Message<'a> {
    /// The channel that the message is for, by our number.
    pub fn channel(&self) -> ChannelId {
        match *self {
            Message::OpenConfirmation { channel, .. }
            | Message::OpenFailure { channel, .. }
            | Message::WindowAdjust { channel, .. }
            | Message::Data { channel, .. }
            | Message::Eof { channel }
            | Message::Close { channel } => channel,
        }
    }

    /// The message from its type and its fields, where a string is its start and its length within the payload.
    pub(crate) fn of(values: &[u64; 7], payload: &'a [u8]) -> Message<'a> {
        let number = |k: usize| values[k] as u32;
        let string = |k: usize| &payload[values[k] as usize..][..values[k + 1] as usize];
        let channel = ChannelId(number(1));
        match values[0] {
            91 => Message::OpenConfirmation { channel, peer: Peer { channel: number(2), window_size: number(3), maxpacket: number(4) } },
            92 => Message::OpenFailure { channel, reason: number(2), description: string(3), language: string(5) },
            93 => Message::WindowAdjust { channel, add: number(2) },
            94 => Message::Data { channel, ext: None, data: string(2) },
            95 => Message::Data { channel, ext: Some(number(2)), data: string(3) },
            96 => Message::Eof { channel },
            97 => Message::Close { channel },
            kind => unreachable!("the library is proved to answer messages 91 to 97, and gave {kind}"),
        }
    }
}
