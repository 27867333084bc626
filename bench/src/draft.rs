//! The draft's side: its text, unchanged. What it takes as owned bytes is copied from a slice within the time, since our calls borrow it.
//! It has no call for an incoming message; the few lines that stand for it here are ours.

use crate::cases::{Call, Case, FIRST};
use crate::session::Encrypted;
use crate::standins::{Bytes, ChannelId, ChannelParams, PacketWriter};

pub struct State {
    table: Encrypted,
    writer: PacketWriter,
    bytes: Vec<u8>,
}

/// A confirmed channel, as the comparison opens one for the peer.
fn channel(number: u32, case: &Case) -> ChannelParams {
    ChannelParams {
        recipient_channel: number,
        sender_channel: ChannelId(number),
        recipient_window_size: 1 << 30,
        sender_window_size: 1 << 20,
        recipient_maximum_packet_size: case.limit(),
        sender_maximum_packet_size: 32 * 1024,
        confirmed: true,
        wants_reply: false,
        pending_data: Default::default(),
        pending_eof: false,
        pending_close: false,
    }
}

impl State {
    pub fn new(case: &Case) -> State {
        let mut table = Encrypted::empty();
        for number in FIRST..FIRST + case.channels {
            table.channels.insert(ChannelId(number), channel(number, case));
        }
        (0..case.staged_frames).for_each(|_| table.eof(ChannelId(FIRST)).unwrap());
        let mut bytes = vec![7; if let Call::Data { size, .. } = case.call { size } else { 64 }];
        if matches!(case.call, Call::Adjust | Call::Received) {
            bytes = case.payload();
        }
        State { table, writer: PacketWriter::default(), bytes }
    }

    /// As `new` left it. The buffers keep their memory, as buffers in use do.
    pub fn reset(&mut self, case: &Case) {
        self.table.write.truncate(case.staged_frames * 9);
        self.writer.payloads.clear();
        let number = ChannelId(case.number());
        match case.call {
            Call::Open => {
                self.table.last_channel_id.0 = 1;
                self.table.channels.remove(&number);
            }
            Call::Close => drop(self.table.channels.insert(number, channel(number.0, case))),
            _ => self.table.channels.get_mut(&number).unwrap().recipient_window_size = 1 << 30,
        }
        if let Call::FlushPending { entries } = case.call {
            let pending = &mut self.table.channels.get_mut(&number).unwrap().pending_data;
            (0..entries).for_each(|_| pending.push_back((Bytes::from(self.bytes.clone()), None, 0)));
        }
    }

    /// Reads a 93 or 94 and does what the rules say.
    fn incoming(&mut self) -> Option<usize> {
        let (head, rest) = self.bytes.split_first_chunk::<5>()?;
        let integer = |bytes: &[u8]| Some(u32::from_be_bytes(bytes.get(..4)?.try_into().ok()?));
        let record = self.table.channels.get_mut(&ChannelId(integer(&head[1..])?))?;
        let value = integer(rest)?;
        match head[0] {
            93 if rest.len() == 4 => record.recipient_window_size = record.recipient_window_size.checked_add(value)?,
            94 if rest.len() == 4 + value as usize => {}
            _ => return None,
        }
        Some(value as usize)
    }

    /// Makes the call; the number that it answers shows that it was made.
    pub fn call(&mut self, case: &Case) -> usize {
        let (table, number) = (&mut self.table, ChannelId(case.number()));
        match case.call {
            Call::Data { straight: false, .. } => table.data(number, self.bytes.clone(), false).map(|()| 0).unwrap(),
            Call::Data { straight: true, .. } => {
                table.data_with_writer(&mut self.writer, number, self.bytes.clone(), false).map(|()| 0).unwrap()
            }
            Call::FlushPending { .. } => table.flush_pending(number).unwrap(),
            Call::Adjust | Call::Received => self.incoming().unwrap(),
            Call::Open => table.new_channel(1 << 20, 32 * 1024).0 as usize,
            Call::Close => table.close(number).map(|()| 0).unwrap(),
        }
    }
}
