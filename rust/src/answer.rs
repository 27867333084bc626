//! What calls answer, and how it is read from the library's numbers.

use crate::ffi::Numbers;
use crate::{ChannelId, Error, Stopped};

/// What a pending flush of one channel did.
#[derive(Clone, Copy, Debug, PartialEq, Eq, Hash)]
pub enum ChannelFlushResult {
    /// The peer's window is used up, and bytes are left.
    Incomplete {
        /// The bytes framed.
        wrote: usize,
    },
    /// Nothing is left. What was marked behind the data, EOF and then CLOSE, is staged now.
    Complete {
        /// The bytes framed.
        wrote: usize,
        /// Whether EOF was marked.
        pending_eof: bool,
        /// Whether CLOSE was marked; then the channel is gone.
        pending_close: bool,
    },
}

impl ChannelFlushResult {
    /// The bytes framed, either way.
    pub fn wrote(&self) -> usize {
        match *self {
            ChannelFlushResult::Incomplete { wrote } | ChannelFlushResult::Complete { wrote, .. } => wrote,
        }
    }
}

/// What a staged flush did.
#[derive(Clone, Copy, Debug, PartialEq, Eq, Hash)]
pub enum Flushed {
    /// Rekey is on, and nothing was done.
    Held,
    /// The longest front run of whole frames that fits went to sent, perhaps none.
    Moved {
        /// How many.
        frames: usize,
        /// Their bytes, lengths included.
        bytes: usize,
    },
}

/// The values of an answer that is no refusal.
#[inline]
pub(crate) fn values(answer: &Numbers) -> Result<&[u64; 7], Error> {
    match answer.refusal {
        0 => Ok(&answer.values),
        number => Err(Error::of(number)),
    }
}

/// No value.
#[inline]
pub(crate) fn done(answer: &Numbers) -> Result<(), Error> {
    values(answer).map(|_| ())
}

/// One value that is a channel's number, at this end.
#[inline]
pub(crate) fn channel(answer: &Numbers) -> Result<ChannelId, Error> {
    number(answer).map(ChannelId)
}

/// One value that has 32 bits.
#[inline]
pub(crate) fn number(answer: &Numbers) -> Result<u32, Error> {
    values(answer).map(|v| v[0] as u32)
}

/// One value that counts bytes.
#[inline]
pub(crate) fn count(answer: &Numbers) -> Result<usize, Error> {
    values(answer).map(|v| v[0] as usize)
}

/// One value, 1 for yes.
#[inline]
pub(crate) fn yes(answer: &Numbers) -> Result<bool, Error> {
    values(answer).map(|v| v[0] == 1)
}

/// 1, the bytes and the two marks, or 0 and the bytes.
pub(crate) fn channel_flush_result(answer: &Numbers) -> Result<ChannelFlushResult, Error> {
    let v = values(answer)?;
    let wrote = v[1] as usize;
    Ok(match v[0] {
        1 => ChannelFlushResult::Complete { wrote, pending_eof: v[2] == 1, pending_close: v[3] == 1 },
        _ => ChannelFlushResult::Incomplete { wrote },
    })
}

/// 1, the frames and the bytes, or 0.
pub(crate) fn flushed(answer: &Numbers) -> Result<Flushed, Error> {
    let v = values(answer)?;
    Ok(match v[0] {
        1 => Flushed::Moved { frames: v[1] as usize, bytes: v[2] as usize },
        _ => Flushed::Held,
    })
}

/// No value, or beside the refusal the channel that was refused, if one was tried.
pub(crate) fn all_flushed(answer: &Numbers) -> Result<(), Stopped> {
    done(answer).map_err(|error| {
        let channel = if answer.count == 1 { Some(ChannelId(answer.values[0] as u32)) } else { None };
        Stopped { channel, error }
    })
}
