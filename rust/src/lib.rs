//! The channels of an SSH connection (RFC 4254, section 5): numbers given out and taken back, data cut into packets up to the peer's
//! window, what must wait queued, and the peer's messages acted on.
//!
//! Every call is one function of a library that is proved: its answer and every byte of its state are those of one definition, for
//! every input ("the rules" below are docs/RULES.md of the repository). This crate is the wrapper for Rust. It has no dependencies, and
//! `unsafe` only where it calls the library.
//!
//! All state is in [`Channels`]. A connection feeds each message of the peer's to [`Channels::incoming`], sends with [`Channels::data`] and
//! its sisters, and hands [`Channels::sent`] to its cipher:
//!
//! ```
//! use oxenhush::{Channels, Error, Message};
//!
//! # fn main() -> Result<(), Error> {
//! let mut channels = Channels::new(8192, 16384, 16384);
//! let channel = channels.new_channel(64, 32)?;
//! assert_eq!(channel.to_string(), "2");
//! assert_eq!(channels.data(channel, b"too early", false), Err(Error::Unconfirmed));
//!
//! // The peer confirms: it calls the channel 7, and takes 1,024 bytes in packets of 512.
//! channels.incoming(b"\x5b\0\0\0\x02\0\0\0\x07\0\0\x04\0\0\0\x02\0")?;
//!
//! // It sends two bytes, which are charged and sent back.
//! let payload = b"\x5e\0\0\0\x02\0\0\0\x02hi";
//! if let Message::Data { channel, data, .. } = channels.incoming(payload)? {
//!     channels.adjust_window_size(channel, data.len() as u32, 64)?;
//!     channels.data_with_writer(channel, data, false)?;
//! }
//! assert_eq!(channels.sender_window_size(channel)?, 62);
//! assert_eq!(channels.sent(), b"\0\0\0\x0b\x5e\0\0\0\x07\0\0\0\x02hi");
//! channels.drain()?;
//! # Ok(())
//! # }
//! ```
//!
//! # Building
//!
//! The library is an archive for Linux on x86-64. The build script makes it by `tools/archive` of the repository, the crate's parent
//! folder, unless there is one newer than its sources; or it takes the one in the folder that `OXENHUSH_LIB_DIR` names. `rust/test` runs
//! the crate's tests, on another processor with an archive made on x86-64, under an emulator.

#![deny(unsafe_code)]
#![warn(missing_docs)]

mod answer;
mod channels;
mod error;
#[allow(unsafe_code)]
mod ffi;
mod message;
#[cfg(test)]
mod tests;

pub use answer::{ChannelFlushResult, Flushed};
pub use channels::{Channel, Channels, Peer, Pending};
pub use error::{Error, Stopped};
pub use message::Message;

use std::fmt;

/// A channel's number at this end.
#[derive(Clone, Copy, Debug, PartialEq, Eq, PartialOrd, Ord, Hash)]
pub struct ChannelId(pub u32);

impl fmt::Display for ChannelId {
    fn fmt(&self, f: &mut fmt::Formatter<'_>) -> fmt::Result {
        self.0.fmt(f)
    }
}

impl From<u32> for ChannelId {
    fn from(number: u32) -> ChannelId {
        ChannelId(number)
    }
}

impl From<ChannelId> for u32 {
    fn from(channel: ChannelId) -> u32 {
        channel.0
    }
}
