//! Stand-ins of ours for what the draft's text names and is not at hand. What the compared calls use does what the
//! README says; what only has to be there for the text to compile is an empty type.

use std::collections::VecDeque;
use std::fmt;
use std::ops::Deref;

/// The local number of a channel.
#[derive(Debug, Clone, Copy, PartialEq, Eq, Hash, PartialOrd, Ord)]
pub struct ChannelId(pub u32);

impl fmt::Display for ChannelId {
    fn fmt(&self, f: &mut fmt::Formatter<'_>) -> fmt::Result {
        write!(f, "{}", self.0)
    }
}

/// A channel's record, with the fields that the draft's `new_channel` fills.
#[derive(Debug, Clone)]
pub struct ChannelParams {
    pub recipient_channel: u32,
    pub sender_channel: ChannelId,
    pub recipient_window_size: u32,
    pub sender_window_size: u32,
    pub recipient_maximum_packet_size: u32,
    pub sender_maximum_packet_size: u32,
    pub confirmed: bool,
    pub wants_reply: bool,
    /// The bytes, the code if extended, and how many bytes are already framed.
    pub pending_data: VecDeque<(Bytes, Option<u32>, usize)>,
    pub pending_eof: bool,
    pub pending_close: bool,
}

impl ChannelParams {
    /// Both marks, which are cleared.
    pub fn take_pending_controls(&mut self) -> (bool, bool) {
        (std::mem::take(&mut self.pending_eof), std::mem::take(&mut self.pending_close))
    }
}

/// The one error that the taken text makes.
#[derive(Debug)]
pub enum Error {
    Inconsistent,
}

/// Shared bytes; here owned ones.
#[derive(Debug, Clone, Default)]
pub struct Bytes(Vec<u8>);

impl From<Vec<u8>> for Bytes {
    fn from(bytes: Vec<u8>) -> Self {
        Bytes(bytes)
    }
}

impl Deref for Bytes {
    type Target = [u8];
    fn deref(&self) -> &[u8] {
        &self.0
    }
}

impl AsRef<[u8]> for Bytes {
    fn as_ref(&self) -> &[u8] {
        &self.0
    }
}

/// RFC 4251's integer and string.
pub trait Encode {
    fn encode(&self, out: &mut Vec<u8>) -> Result<(), Error>;
}

impl Encode for u32 {
    fn encode(&self, out: &mut Vec<u8>) -> Result<(), Error> {
        out.extend_from_slice(&self.to_be_bytes());
        Ok(())
    }
}

impl Encode for [u8] {
    fn encode(&self, out: &mut Vec<u8>) -> Result<(), Error> {
        (self.len() as u32).encode(out)?;
        out.extend_from_slice(self);
        Ok(())
    }
}

/// The reader of the draft's staged flush.
pub struct BigEndian;

impl BigEndian {
    pub fn read_u32(bytes: &[u8]) -> u32 {
        u32::from_be_bytes([bytes[0], bytes[1], bytes[2], bytes[3]])
    }
}

/// Puts a frame at the end of a buffer: room for the length, the payload, then the length.
macro_rules! push_packet {
    ($buffer:expr, $payload:expr) => {{
        let start = $buffer.len();
        $buffer.extend_from_slice(&[0; 4]);
        let result = $payload;
        let length = ($buffer.len() - start - 4) as u32;
        $buffer[start..start + 4].copy_from_slice(&length.to_be_bytes());
        result
    }};
}
pub(crate) use push_packet;

/// Logging: the arguments are checked and nothing is written.
macro_rules! quiet {
    ($($argument:tt)*) => {{
        let _ = format_args!($($argument)*);
    }};
}
pub(crate) use quiet as debug;
pub(crate) use quiet as trace;

/// What the cipher would take: the payloads, in order, and the sum of their lengths.
#[derive(Debug, Clone, Default)]
pub struct PacketWriter {
    pub payloads: Vec<Vec<u8>>,
    count: SSHBuffer,
}

/// The part of the writer's buffer that the staged flush reads.
#[derive(Debug, Clone, Default)]
pub struct SSHBuffer {
    pub bytes: usize,
}

impl PacketWriter {
    /// Sends one payload; an empty one is dropped, as in the draft's `sshbuffer.rs`.
    pub fn packet_raw(&mut self, payload: &[u8]) -> Result<(), Error> {
        if !payload.is_empty() {
            self.count.bytes += payload.len();
            self.payloads.push(payload.to_vec());
        }
        Ok(())
    }

    /// Sends the payload that the closure writes; none if it fails.
    pub fn write_packet<F: FnOnce(&mut Vec<u8>) -> Result<(), Error>>(&mut self, f: F) -> Result<(), Error> {
        let mut payload = Vec::new();
        f(&mut payload)?;
        self.packet_raw(&payload)
    }

    /// A hint for the allocator.
    pub fn reserve_cleartext_packet_output(&mut self, _payload_bytes: usize, _packet_count: usize) {}

    pub fn buffer(&mut self) -> &mut SSHBuffer {
        &mut self.count
    }

    pub fn bytes_written(&self) -> usize {
        self.count.bytes
    }
}

/// When a rekey is due; only the answer of the draft's staged flush, which is not compared, rests on it.
pub struct Limits {
    pub rekey_write_limit: usize,
    pub rekey_time_limit: std::time::Duration,
}

/// The message numbers of RFC 4254 that the taken text names.
pub mod msg {
    pub const CHANNEL_WINDOW_ADJUST: u8 = 93;
    pub const CHANNEL_DATA: u8 = 94;
    pub const CHANNEL_EXTENDED_DATA: u8 = 95;
    pub const CHANNEL_EOF: u8 = 96;
    pub const CHANNEL_CLOSE: u8 = 97;
}

/// Clocks.
pub mod russh_util {
    pub mod time {
        pub use std::time::Instant;
    }
}

/// The key exchange: none is made.
#[derive(Debug)]
pub struct KexAlgorithm;

impl KexAlgorithm {
    pub fn skip_exchange(&self) -> bool {
        true
    }
}

// Only named by the fields of `Encrypted`, `EncryptedState` and `Exchange`.

#[derive(Debug)]
pub struct CryptoVec;

#[derive(Debug, Clone)]
pub struct GexParams;

#[derive(Debug, Clone)]
pub struct DhGroup;

pub mod auth {
    #[derive(Debug)]
    pub struct AuthRequest;
}

pub mod mac {
    #[derive(Debug)]
    pub struct Name;
}

pub mod oneshot {
    #[derive(Debug)]
    pub struct Sender<T>(std::marker::PhantomData<T>);
}

pub mod compression {
    #[derive(Debug)]
    pub struct Compression;
    #[derive(Debug)]
    pub struct Decompress;
}
