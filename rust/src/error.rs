//! Why a call was refused.

use crate::ChannelId;
use std::fmt;

/// Why a call was refused: the rules' eight answers, with their numbers. They are checked in the order 1, 7, 2, 3, 8, 6, 4, 5.
///
/// A refused call has changed nothing, a flush of all channels apart ([`Stopped`]).
#[derive(Clone, Copy, Debug, PartialEq, Eq, PartialOrd, Ord, Hash)]
pub enum Error {
    /// 1: the state is not sound. With [`Channels`](crate::Channels) that is so only where a buffer is longer than 65,536 bytes.
    State = 1,
    /// 2: no channel has the number.
    Unknown = 2,
    /// 3: the channel is not confirmed yet.
    Unconfirmed = 3,
    /// 4: bytes would be framed now, and the peer's packet limit is 0. So it is also where the peer's window is 0.
    Limit = 4,
    /// 5: there is no free place or entry, or not enough free bytes in queue, staged or sent for the whole result.
    Room = 5,
    /// 6: a window would pass 4,294,967,295.
    Credit = 6,
    /// 7: the payload has none of the forms of the messages 91 to 97.
    Malformed = 7,
    /// 8: a message 91 or 92 for a channel that is confirmed, or an opening at a number in use.
    Already = 8,
}

impl Error {
    /// The rules' number, 1 to 8.
    pub fn number(self) -> u32 {
        self as u32
    }

    /// The refusal with a number that the library gave.
    pub(crate) fn of(number: u32) -> Error {
        match number {
            1 => Error::State,
            2 => Error::Unknown,
            3 => Error::Unconfirmed,
            4 => Error::Limit,
            5 => Error::Room,
            6 => Error::Credit,
            7 => Error::Malformed,
            8 => Error::Already,
            _ => unreachable!("the library is proved to refuse with 1 to 8, and gave {number}"),
        }
    }
}

impl fmt::Display for Error {
    fn fmt(&self, f: &mut fmt::Formatter<'_>) -> fmt::Result {
        f.write_str(match self {
            Error::State => "the state is not sound",
            Error::Unknown => "no channel has this number",
            Error::Unconfirmed => "the channel is not confirmed",
            Error::Limit => "the peer's packet limit is 0",
            Error::Room => "no room: no free place or entry, or too few free bytes in a buffer",
            Error::Credit => "a window would pass 4294967295",
            Error::Malformed => "the message is malformed",
            Error::Already => "the channel is already confirmed, or its number already in use",
        })
    }
}

impl std::error::Error for Error {}

/// Where a flush of all channels stopped, and why. What it did for the channels before that one stands.
#[derive(Clone, Copy, Debug, PartialEq, Eq, Hash)]
pub struct Stopped {
    /// The channel that was refused. None if the state is not sound: then no channel was tried.
    pub channel: Option<ChannelId>,
    /// Why.
    pub error: Error,
}

impl fmt::Display for Stopped {
    fn fmt(&self, f: &mut fmt::Formatter<'_>) -> fmt::Result {
        match self.channel {
            Some(channel) => write!(f, "the flush of all channels stopped at channel {channel}"),
            None => f.write_str("the flush of all channels tried no channel"),
        }
    }
}

impl std::error::Error for Stopped {
    fn source(&self) -> Option<&(dyn std::error::Error + 'static)> {
        Some(&self.error)
    }
}

/// The refusal alone, so that `?` serves for both.
impl From<Stopped> for Error {
    fn from(stopped: Stopped) -> Error {
        stopped.error
    }
}
