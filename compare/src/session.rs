//! The draft's text over the stand-ins, and the few lines of ours that need its private parts.

use std::collections::HashMap;
use std::mem::replace;
use std::num::Wrapping;
use std::time::Duration;

use crate::standins::{
    BigEndian, Bytes, ChannelId, ChannelParams, CryptoVec, DhGroup, Encode, GexParams, KexAlgorithm, Limits, PacketWriter, auth, debug,
    mac, msg, oneshot, push_packet, russh_util, trace,
};

include!(concat!(env!("OUT_DIR"), "/draft.rs"));

impl Encrypted {
    /// An empty table, its fields as the draft's `CommonSession::encrypted` sets them.
    pub fn empty() -> Self {
        Encrypted {
            state: EncryptedState::Authenticated,
            exchange: None,
            kex: KexAlgorithm,
            key: 0,
            client_mac: mac::Name,
            server_mac: mac::Name,
            session_id: CryptoVec,
            channels: HashMap::new(),
            last_channel_id: Wrapping(1),
            write: Vec::new(),
            write_cursor: 0,
            last_rekey: russh_util::time::Instant::now(),
            server_compression: crate::compression::Compression,
            client_compression: crate::compression::Compression,
            decompress: crate::compression::Decompress,
            rekey_wanted: false,
            received_extensions: Vec::new(),
            extension_info_awaiters: HashMap::new(),
        }
    }

    /// The same table again, so that a call can be tried.
    pub fn copy(&self) -> Self {
        Encrypted {
            channels: self.channels.clone(),
            last_channel_id: self.last_channel_id,
            write: self.write.clone(),
            write_cursor: self.write_cursor,
            ..Encrypted::empty()
        }
    }

    /// What the draft's pending flush of a channel comes to, asked of copies: its public form answers less.
    pub fn flush_result(&self, writer: Option<&PacketWriter>, channel: ChannelId, rekey: bool) -> Result<ChannelFlushResult, crate::Error> {
        let mut channel = self.channels[&channel].clone();
        let mut write = self.write.clone();
        match writer {
            None => Self::flush_channel(&mut write, &mut channel),
            Some(writer) => Self::flush_channel_with_writer(&mut write, &mut writer.clone(), &mut channel, rekey),
        }
    }
}
