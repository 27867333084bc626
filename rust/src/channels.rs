//! The channels of one connection: the table and its three buffers.

use crate::ffi::{self, Entry, Record, Table};
use crate::{answer, ChannelFlushResult, ChannelId, Error, Flushed, Message, Stopped};
use std::fmt;

/// What the peer says of its end of a channel.
#[derive(Clone, Copy, Debug, PartialEq, Eq, Hash)]
pub struct Peer {
    /// The peer's number for the channel, which our messages to it carry.
    pub channel: u32,
    /// The bytes that the peer takes until it gives more credit.
    pub window_size: u32,
    /// The most bytes of data that the peer takes in one packet.
    pub maxpacket: u32,
}

/// One channel, as the table holds it. "Recipient" is the peer's end, "sender" ours.
#[derive(Clone, Copy, Debug, PartialEq, Eq, Hash)]
pub struct Channel {
    /// The peer's number, once it is confirmed.
    pub recipient_channel: u32,
    /// Our number.
    pub sender_channel: ChannelId,
    /// The bytes that we may still send.
    pub recipient_window_size: u32,
    /// The bytes that the peer may still send.
    pub sender_window_size: u32,
    /// The most bytes of data in one packet to the peer.
    pub recipient_maximum_packet_size: u32,
    /// The most bytes of data in one packet to us.
    pub sender_maximum_packet_size: u32,
    /// Whether the peer opened its end.
    pub confirmed: bool,
    /// Carried along; no call sets it.
    pub wants_reply: bool,
    /// EOF goes out when the last pending byte has gone.
    pub pending_eof: bool,
    /// CLOSE goes out then, and the channel goes.
    pub pending_close: bool,
}

impl Channel {
    fn of(r: &Record) -> Channel {
        Channel {
            recipient_channel: r.recipient_channel,
            sender_channel: ChannelId(r.sender_channel),
            recipient_window_size: r.recipient_window_size,
            sender_window_size: r.sender_window_size,
            recipient_maximum_packet_size: r.recipient_maximum_packet_size,
            sender_maximum_packet_size: r.sender_maximum_packet_size,
            confirmed: r.confirmed,
            wants_reply: r.wants_reply,
            pending_eof: r.pending_eof,
            pending_close: r.pending_close,
        }
    }
}

/// Data that waits in the queue: what one data call left over.
#[derive(Clone, Copy, Debug, PartialEq, Eq, Hash)]
pub struct Pending {
    /// The channel, by our number.
    pub channel: ChannelId,
    /// The code of extended data; none for plain data.
    pub ext: Option<u32>,
    /// The bytes left, perhaps 0.
    pub left: usize,
}

impl Pending {
    fn of(e: &Entry) -> Pending {
        let ext = if e.kind.extended { Some(e.kind.code) } else { None };
        Pending { channel: ChannelId(e.number), ext, left: e.left as usize }
    }
}

/// The channels of one connection, 32 at most, with at most 64 pieces of data that wait.
///
/// It owns three buffers. Bytes that wait stand in *queue*, frames that wait in *staged*, and *sent* has the frames for the cipher below. A
/// frame is a big-endian length of 32 bits and one message.
///
/// A method changes nothing where it answers an [`Error`], the two flushes of all channels apart. Every method that gives a `Result`
/// answers [`Error::State`] if a buffer is longer than 65,536 bytes; its own errors are named at each. Two values are equal if every byte
/// is, those past the used parts of the buffers among them.
///
/// Packets for a peer that takes 5 bytes, 3 in one packet:
///
/// ```
/// use oxenhush::{ChannelFlushResult, Channels, Error, Flushed, Peer};
///
/// # fn main() -> Result<(), Error> {
/// let mut channels = Channels::new(8192, 16384, 16384);
/// let channel = 2.into();
/// channels.open_for_peer(channel, Peer { channel: 7, window_size: 5, maxpacket: 3 }, 64, 32)?;
///
/// // Five bytes are framed now, three wait for credit, and EOF waits behind them.
/// assert_eq!(channels.data(channel, b"abcdefgh", false)?, 5);
/// channels.eof(channel)?;
/// assert_eq!(channels.queue(), b"fgh");
/// assert_eq!(channels.flush_pending(channel)?, ChannelFlushResult::Incomplete { wrote: 0 });
///
/// // Two frames, 13 bytes over the data each, go on to the cipher.
/// assert_eq!(channels.flush(false)?, Flushed::Moved { frames: 2, bytes: 31 });
/// assert_eq!(channels.sent(), b"\0\0\0\x0c\x5e\0\0\0\x07\0\0\0\x03abc\0\0\0\x0b\x5e\0\0\0\x07\0\0\0\x02de");
/// channels.drain()?;
///
/// assert_eq!(channels.close(9.into()), Err(Error::Unknown));
/// # Ok(())
/// # }
/// ```
#[derive(Clone, PartialEq, Eq)]
pub struct Channels {
    table: Table,
    queue: Box<[u8]>,
    staged: Box<[u8]>,
    sent: Box<[u8]>,
}

impl Channels {
    /// No channel yet, and three buffers of so many bytes. Each may have 65,536 at most: with a longer one every call answers
    /// [`Error::State`].
    pub fn new(queue: usize, staged: usize, sent: usize) -> Channels {
        let buffer = |size| vec![0; size].into_boxed_slice();
        Channels { table: ffi::table_new(), queue: buffer(queue), staged: buffer(staged), sent: buffer(sent) }
    }

    /// Opens a channel at our end, for the peer to confirm, with our window and packet limit. Its number is the first after the last one
    /// given that is not in use.
    ///
    /// # Errors
    ///
    /// [`Error::Room`] if there are 32 channels.
    pub fn new_channel(&mut self, window_size: u32, maxpacket: u32) -> Result<ChannelId, Error> {
        answer::channel(&ffi::new_channel(&mut self.table, &self.queue, &self.staged, &self.sent, window_size, maxpacket))
    }

    /// Gives a number out as [`new_channel`](Self::new_channel) does, and opens nothing.
    ///
    /// # Errors
    ///
    /// [`Error::Room`] if there are 32 channels.
    pub fn new_channel_id(&mut self) -> Result<ChannelId, Error> {
        answer::channel(&ffi::new_channel_id(&mut self.table, &self.queue, &self.staged, &self.sent))
    }

    /// Opens a channel that the peer asked for, confirmed at once, at a number that the caller gives, with our window and packet limit.
    ///
    /// # Errors
    ///
    /// [`Error::Already`] if the number is in use; [`Error::Room`] if there are 32 channels.
    pub fn open_for_peer(&mut self, channel: ChannelId, peer: Peer, window_size: u32, maxpacket: u32) -> Result<(), Error> {
        answer::done(&ffi::open_for_peer(
            &mut self.table,
            &self.queue,
            &self.staged,
            &self.sent,
            channel.0,
            peer.channel,
            window_size,
            maxpacket,
            peer.window_size,
            peer.maxpacket,
        ))
    }

    /// Sends data: packets into staged up to the peer's window; the rest is queued. If the channel has data pending, or `rekey` is on, the
    /// whole is queued. Answers the bytes framed now.
    ///
    /// # Errors
    ///
    /// [`Error::Unknown`], [`Error::Unconfirmed`], [`Error::Limit`] (not of empty data, nor where the whole is queued), [`Error::Room`]
    /// (asked of the packets and the rest together).
    pub fn data(&mut self, channel: ChannelId, buf: &[u8], rekey: bool) -> Result<usize, Error> {
        answer::count(&ffi::data(&mut self.table, &mut self.queue, &mut self.staged, &self.sent, channel.0, buf, rekey))
    }

    /// As [`data`](Self::data), but the packets go straight into sent if nothing is staged.
    ///
    /// # Errors
    ///
    /// Those of [`data`](Self::data).
    pub fn data_with_writer(&mut self, channel: ChannelId, buf: &[u8], rekey: bool) -> Result<usize, Error> {
        answer::count(&ffi::data_with_writer(&mut self.table, &mut self.queue, &mut self.staged, &mut self.sent, channel.0, buf, rekey))
    }

    /// As [`data`](Self::data), with extended data of the code `ext` (1 is standard error).
    ///
    /// # Errors
    ///
    /// Those of [`data`](Self::data).
    pub fn extended_data(&mut self, channel: ChannelId, ext: u32, buf: &[u8], rekey: bool) -> Result<usize, Error> {
        answer::count(&ffi::extended_data(&mut self.table, &mut self.queue, &mut self.staged, &self.sent, channel.0, ext, buf, rekey))
    }

    /// As [`extended_data`](Self::extended_data), but the packets go straight into sent if nothing is staged.
    ///
    /// # Errors
    ///
    /// Those of [`extended_data`](Self::extended_data).
    pub fn extended_data_with_writer(&mut self, channel: ChannelId, ext: u32, buf: &[u8], rekey: bool) -> Result<usize, Error> {
        answer::count(&ffi::extended_data_with_writer(
            &mut self.table,
            &mut self.queue,
            &mut self.staged,
            &mut self.sent,
            channel.0,
            ext,
            buf,
            rekey,
        ))
    }

    /// Says that no more data will come: EOF is staged, or marked to follow the data that is pending.
    ///
    /// # Errors
    ///
    /// [`Error::Unknown`], [`Error::Unconfirmed`], [`Error::Room`].
    pub fn eof(&mut self, channel: ChannelId) -> Result<(), Error> {
        answer::done(&ffi::eof(&mut self.table, &self.queue, &mut self.staged, &self.sent, channel.0))
    }

    /// Closes the channel: CLOSE is staged and the channel is gone, or CLOSE is marked to follow the data that is pending.
    ///
    /// # Errors
    ///
    /// [`Error::Unknown`], [`Error::Unconfirmed`], [`Error::Room`].
    pub fn close(&mut self, channel: ChannelId) -> Result<(), Error> {
        answer::done(&ffi::close(&mut self.table, &self.queue, &mut self.staged, &self.sent, channel.0))
    }

    /// Charges the receive window for `n` bytes of data that came in; more than the window are not charged. If it is then below half of
    /// `target`, a WINDOW_ADJUST up to `target` is staged. Answers whether it was.
    ///
    /// # Errors
    ///
    /// [`Error::Unknown`], [`Error::Unconfirmed`], [`Error::Room`].
    pub fn adjust_window_size(&mut self, channel: ChannelId, n: u32, target: u32) -> Result<bool, Error> {
        answer::yes(&ffi::adjust_window_size(&mut self.table, &self.queue, &mut self.staged, &self.sent, channel.0, n, target))
    }

    /// The receive window: the bytes that the peer may still send. 0 for a channel that is not there.
    ///
    /// # Errors
    ///
    /// [`Error::State`] only.
    pub fn sender_window_size(&self, channel: ChannelId) -> Result<u32, Error> {
        answer::number(&ffi::sender_window_size(&self.table, &self.queue, &self.staged, &self.sent, channel.0))
    }

    /// Whether the channel has data that waits, perhaps of 0 bytes. No for a channel that is not there.
    ///
    /// # Errors
    ///
    /// [`Error::State`] only.
    pub fn has_pending_data(&self, channel: ChannelId) -> Result<bool, Error> {
        answer::yes(&ffi::has_pending_data(&self.table, &self.queue, &self.staged, &self.sent, channel.0))
    }

    /// Frames the channel's pending data into staged, up to the peer's window, and stages what was marked behind it.
    ///
    /// # Errors
    ///
    /// [`Error::Unknown`], [`Error::Limit`], [`Error::Room`].
    pub fn flush_pending(&mut self, channel: ChannelId) -> Result<ChannelFlushResult, Error> {
        answer::channel_flush_result(&ffi::flush_pending(&mut self.table, &mut self.queue, &mut self.staged, &self.sent, channel.0))
    }

    /// As [`flush_pending`](Self::flush_pending), but the packets go straight into sent if nothing is staged and `rekey` is off. EOF and
    /// CLOSE are always staged.
    ///
    /// # Errors
    ///
    /// Those of [`flush_pending`](Self::flush_pending).
    pub fn flush_pending_with_writer(&mut self, channel: ChannelId, rekey: bool) -> Result<ChannelFlushResult, Error> {
        answer::channel_flush_result(&ffi::flush_pending_with_writer(
            &mut self.table,
            &mut self.queue,
            &mut self.staged,
            &mut self.sent,
            channel.0,
            rekey,
        ))
    }

    /// Does [`flush_pending`](Self::flush_pending) for every channel, in ascending number, and stops at the first refusal. What was done
    /// before it stands.
    ///
    /// # Errors
    ///
    /// [`Stopped`] at a channel, with [`Error::Limit`] or [`Error::Room`].
    pub fn flush_all_pending(&mut self) -> Result<(), Stopped> {
        answer::all_flushed(&ffi::flush_all_pending(&mut self.table, &mut self.queue, &mut self.staged, &self.sent))
    }

    /// Does [`flush_pending_with_writer`](Self::flush_pending_with_writer) for every channel, in ascending number, and stops at the first
    /// refusal. What was done before it stands.
    ///
    /// # Errors
    ///
    /// [`Stopped`] at a channel, with [`Error::Limit`] or [`Error::Room`].
    pub fn flush_all_pending_with_writer(&mut self, rekey: bool) -> Result<(), Stopped> {
        answer::all_flushed(&ffi::flush_all_pending_with_writer(&mut self.table, &mut self.queue, &mut self.staged, &mut self.sent, rekey))
    }

    /// Moves the longest front run of staged's frames that fits to sent. During rekey nothing moves.
    ///
    /// # Errors
    ///
    /// [`Error::State`] only.
    pub fn flush(&mut self, rekey: bool) -> Result<Flushed, Error> {
        answer::flushed(&ffi::flush(&mut self.table, &self.queue, &mut self.staged, &mut self.sent, rekey))
    }

    /// Empties sent, once its frames are with the cipher.
    ///
    /// # Errors
    ///
    /// [`Error::State`] only.
    pub fn drain(&mut self) -> Result<(), Error> {
        answer::done(&ffi::drain(&mut self.table, &self.queue, &self.staged, &mut self.sent))
    }

    /// Reads one message of the peer's, its payload from the type byte on, and acts on it ([`Message`] says how).
    ///
    /// # Errors
    ///
    /// [`Error::Malformed`], [`Error::Unknown`], [`Error::Unconfirmed`] (93 to 97), [`Error::Already`] (91 and 92), [`Error::Credit`] (93),
    /// [`Error::Room`] (97).
    pub fn incoming<'a>(&mut self, payload: &'a [u8]) -> Result<Message<'a>, Error> {
        let answer = ffi::incoming(&mut self.table, &mut self.queue, &mut self.staged, &self.sent, payload);
        answer::values(&answer).map(|values| Message::of(values, payload))
    }

    /// The used part of queue: the bytes of what is [`pending`](Self::pending), in its order.
    pub fn queue(&self) -> &[u8] {
        &self.queue[..self.table.queue_used]
    }

    /// The used part of staged: whole frames that wait for [`flush`](Self::flush).
    pub fn staged(&self) -> &[u8] {
        &self.staged[..self.table.staged_used]
    }

    /// The used part of sent: whole frames for the cipher, which [`drain`](Self::drain) drops.
    pub fn sent(&self) -> &[u8] {
        &self.sent[..self.table.sent_used]
    }

    /// The channels, by their places in the table.
    pub fn channels(&self) -> impl Iterator<Item = Channel> + '_ {
        let used = self.table.used;
        let places = self.table.records.iter().enumerate();
        places.filter(move |(place, _)| used >> place & 1 == 1).map(|(_, record)| Channel::of(record))
    }

    /// What is pending, in the order in which it was accepted, over all channels.
    pub fn pending(&self) -> impl Iterator<Item = Pending> + '_ {
        self.table.entries[..self.table.entry_count].iter().map(Pending::of)
    }
}

/// The channels, what is pending, and the used parts of the buffers.
impl fmt::Debug for Channels {
    fn fmt(&self, f: &mut fmt::Formatter<'_>) -> fmt::Result {
        f.debug_struct("Channels")
            .field("last", &self.table.last)
            .field("channels", &self.channels().collect::<Vec<_>>())
            .field("pending", &self.pending().collect::<Vec<_>>())
            .field("queue", &self.queue())
            .field("staged", &self.staged())
            .field("sent", &self.sent())
            .finish()
    }
}
