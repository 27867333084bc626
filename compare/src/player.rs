//! Plays calls on the draft and writes the lines that both sides have.

use std::fmt::Write;
use std::sync::OnceLock;
use std::time::Duration;

use crate::Error;
use crate::incoming::{Message, read};
use crate::script::Call;
use crate::session::{ChannelFlushResult, Encrypted};
use crate::standins::{ChannelId, ChannelParams, Limits, PacketWriter, msg};

/// The answer numbers of the rules that the player foresees.
const UNKNOWN: u64 = 2;
const UNCONFIRMED: u64 = 3;
const LIMIT: u64 = 4;
const ROOM: u64 = 5;
const CREDIT: u64 = 6;
const MALFORMED: u64 = 7;
const ALREADY: u64 = 8;

/// What a call came to.
#[derive(Debug, PartialEq)]
pub enum Outcome {
    /// Inside the domain: the answer's number and values.
    Inside(Vec<u64>),
    /// Outside, where `replay` must answer these numbers. The state is of no use any more.
    Refused(Vec<u64>),
    /// Outside, with nothing to foresee: damage, or a staged flush that leaves a frame.
    Ended,
}
use Outcome::{Ended, Inside, Refused};

/// The draft's table, what the cipher would have taken since the last drain, and the lent lengths.
pub struct Player {
    pub table: Encrypted,
    pub writer: PacketWriter,
    pub room: [usize; 3],
}

/// As many zero bytes as a receive window call can ask for. Only the length is read, so no page of it is ever touched.
fn zeros(n: u32) -> &'static [u8] {
    static ZEROS: OnceLock<Vec<u8>> = OnceLock::new();
    &ZEROS.get_or_init(|| vec![0; u32::MAX as usize])[..n as usize]
}

fn done() -> Outcome {
    Inside(vec![0])
}

impl Player {
    pub fn new(room: [u32; 3]) -> Self {
        Player { table: Encrypted::empty(), writer: PacketWriter::default(), room: room.map(|length| length as usize) }
    }

    pub fn copy(&self) -> Self {
        Player { table: self.table.copy(), writer: self.writer.clone(), room: self.room }
    }

    /// The records in ascending number.
    pub fn records(&self) -> Vec<&ChannelParams> {
        let mut records: Vec<_> = self.table.channels.values().collect();
        records.sort_by_key(|record| record.sender_channel);
        records
    }

    /// The used counts of queue, staged and sent, and the number of entries.
    pub fn counts(&self) -> [usize; 4] {
        let entries = || self.table.channels.values().flat_map(|record| &record.pending_data);
        [
            entries().map(|(bytes, _, from)| bytes.len() - from).sum(),
            self.table.write.len(),
            self.writer.payloads.iter().map(|payload| payload.len() + 4).sum(),
            entries().count(),
        ]
    }

    /// Whether what the draft made has no room in the places, the entries and the lent buffers.
    fn too_large(&self) -> bool {
        let counts = self.counts();
        self.table.channels.len() > 32 || counts[3] > 64 || (0..3).any(|i| counts[i] > self.room[i])
    }

    /// The answer, or Room if the draft's result is too large.
    fn with_room(&self, answer: Outcome) -> Outcome {
        if self.too_large() { Refused(vec![ROOM]) } else { answer }
    }

    fn confirmed(&self, number: u32) -> Option<bool> {
        self.table.channels.get(&ChannelId(number)).map(|record| record.confirmed)
    }

    fn record(&mut self, number: u32) -> &mut ChannelParams {
        self.table.channels.get_mut(&ChannelId(number)).unwrap()
    }

    /// Plays one call. Where the draft has no such call, its fields are set as the rules say.
    pub fn play(&mut self, call: &Call) -> Outcome {
        match call {
            Call::NewChannel { window, limit } => {
                let number = self.table.new_channel(*window, *limit);
                self.with_room(Inside(vec![0, number.0 as u64]))
            }
            Call::NewChannelId if self.table.channels.len() == 32 => Refused(vec![ROOM]),
            Call::NewChannelId => Inside(vec![0, self.table.new_channel_id().0 as u64]),
            Call::OpenForPeer { .. } => self.open_for_peer(call),
            Call::Data { .. } => self.data(call),
            Call::Eof { number } => self.known(*number, |table| table.eof(ChannelId(*number)).map(|()| vec![0])),
            Call::Close { number } => self.known(*number, |table| table.close(ChannelId(*number)).map(|()| vec![0])),
            Call::AdjustWindowSize { number, n, target } => self.known(*number, |table| {
                table.adjust_window_size(ChannelId(*number), zeros(*n), *target).map(|adjusted| vec![0, adjusted as u64])
            }),
            Call::FlushPending { writer, rekey, number } => self.flush_pending(*writer, *rekey, *number),
            Call::FlushAllPending { writer, rekey } => self.flush_all(*writer, *rekey),
            Call::Flush { rekey } => self.flush(*rekey),
            Call::Drain => {
                self.writer.payloads.clear();
                done()
            }
            Call::Incoming { payload } => self.incoming(payload),
            Call::SenderWindowSize { number } => Inside(vec![0, self.table.sender_window_size(ChannelId(*number)) as u64]),
            Call::HasPendingData { number } => Inside(vec![0, self.table.has_pending_data(ChannelId(*number)) as u64]),
            Call::SetCounts { queue, staged, sent, entries } => {
                let given = [queue, staged, sent, entries].map(|count| *count as usize);
                if given == self.counts() { done() } else { Ended }
            }
            Call::SetByte { which, offset, .. } => {
                if *offset as usize >= self.counts()[*which as usize % 3] {
                    done()
                } else {
                    Ended
                }
            }
        }
    }

    /// A call of the draft that wants a confirmed record and says Ok, doing nothing, if there is none.
    fn known(&mut self, number: u32, call: impl Fn(&mut Encrypted) -> Result<Vec<u64>, Error>) -> Outcome {
        if self.confirmed(number) == Some(false) {
            return Refused(vec![UNCONFIRMED]);
        }
        let known = self.confirmed(number).is_some();
        let answer = call(&mut self.table).expect("the draft's encoders do not fail");
        if known { self.with_room(Inside(answer)) } else { Inside(vec![UNKNOWN]) }
    }

    fn open_for_peer(&mut self, call: &Call) -> Outcome {
        let Call::OpenForPeer { number, peer, window, limit, peer_window, peer_limit } = call else { unreachable!() };
        if self.confirmed(*number).is_some() {
            return Refused(vec![ALREADY]);
        }
        let record = ChannelParams {
            recipient_channel: *peer,
            sender_channel: ChannelId(*number),
            recipient_window_size: *peer_window,
            sender_window_size: *window,
            recipient_maximum_packet_size: *peer_limit,
            sender_maximum_packet_size: *limit,
            confirmed: true,
            wants_reply: false,
            pending_data: Default::default(),
            pending_eof: false,
            pending_close: false,
        };
        self.table.channels.insert(ChannelId(*number), record);
        self.with_room(done())
    }

    /// The answer's bytes framed now are the drop in the peer's window.
    fn data(&mut self, call: &Call) -> Outcome {
        let Call::Data { writer, rekey, number, code, bytes } = call else { unreachable!() };
        let (id, table, bytes) = (ChannelId(*number), &mut self.table, bytes.clone());
        let before = table.channels.get(&id).map(|record| (record.confirmed, record.recipient_window_size));
        if let Some((false, _)) = before {
            return Refused(vec![UNCONFIRMED]);
        }
        let result = match (*writer, *code) {
            (false, None) => table.data(id, bytes, *rekey),
            (false, Some(code)) => table.extended_data(id, code, bytes, *rekey),
            (true, None) => table.data_with_writer(&mut self.writer, id, bytes, *rekey),
            (true, Some(code)) => table.extended_data_with_writer(&mut self.writer, id, code, bytes, *rekey),
        };
        match (result, before) {
            (Err(Error::Inconsistent), _) => Inside(vec![LIMIT]),
            (Ok(()), None) => Inside(vec![UNKNOWN]),
            (Ok(()), Some((_, window))) => {
                let framed = window - self.record(*number).recipient_window_size;
                self.with_room(Inside(vec![0, framed as u64]))
            }
        }
    }

    /// The draft's pending flush of a channel in either form.
    fn flush_one(&mut self, writer: bool, rekey: bool, number: u32) -> Result<usize, Error> {
        if writer {
            self.table.flush_pending_with_writer(&mut self.writer, ChannelId(number), rekey)
        } else {
            self.table.flush_pending(ChannelId(number))
        }
    }

    fn flush_pending(&mut self, writer: bool, rekey: bool, number: u32) -> Outcome {
        if self.confirmed(number).is_none() {
            let wrote = self.flush_one(writer, rekey, number);
            assert!(matches!(wrote, Ok(0)), "the draft says Ok of an unknown number");
            return Inside(vec![UNKNOWN]);
        }
        let asked = self.table.flush_result(writer.then_some(&self.writer), ChannelId(number), rekey);
        let (answer, wrote) = match asked {
            Err(Error::Inconsistent) => return Refused(vec![LIMIT]),
            Ok(ChannelFlushResult::Incomplete { wrote }) => (vec![0, 0, wrote as u64], wrote),
            Ok(ChannelFlushResult::Complete { wrote, pending_eof, pending_close }) => {
                (vec![0, 1, wrote as u64, pending_eof as u64, pending_close as u64], wrote)
            }
        };
        assert_eq!(self.flush_one(writer, rekey, number).ok(), Some(wrote));
        self.with_room(Inside(answer))
    }

    /// The draft walks a hash map; here it is driven in ascending number. A refusal names the channel.
    fn flush_all(&mut self, writer: bool, rekey: bool) -> Outcome {
        let numbers: Vec<u32> = self.records().iter().map(|record| record.sender_channel.0).collect();
        for number in numbers {
            if self.flush_one(writer, rekey, number).is_err() {
                return Refused(vec![LIMIT, number as u64]);
            }
            if self.too_large() {
                return Refused(vec![ROOM, number as u64]);
            }
        }
        done()
    }

    /// Frames and bytes moved are what the writer took; whether a rekey is due is not looked at.
    fn flush(&mut self, rekey: bool) -> Outcome {
        let (frames, bytes) = (self.writer.payloads.len(), self.counts()[1]);
        let limits = Limits { rekey_write_limit: usize::MAX, rekey_time_limit: Duration::MAX };
        self.table.flush(&limits, &mut self.writer, rekey).expect("the stand-in takes every payload");
        if rekey {
            return Inside(vec![0, 0]);
        }
        let frames = self.writer.payloads.len() - frames;
        if self.too_large() { Ended } else { Inside(vec![0, 1, frames as u64, bytes as u64]) }
    }

    /// Sets what the rules say of an incoming message. A 97's CLOSE is staged by the draft.
    fn incoming(&mut self, payload: &[u8]) -> Outcome {
        let Some(message) = read(payload) else { return Refused(vec![MALFORMED]) };
        let number = message.recipient();
        let Some(confirmed) = self.confirmed(number) else { return Inside(vec![UNKNOWN]) };
        let opens = matches!(message, Message::Confirmation { .. } | Message::Failure { .. });
        if opens == confirmed {
            return Refused(vec![if confirmed { ALREADY } else { UNCONFIRMED }]);
        }
        match message {
            Message::Confirmation { sender, window, limit, .. } => {
                let record = self.record(number);
                record.recipient_channel = sender;
                record.recipient_window_size = window;
                record.recipient_maximum_packet_size = limit;
                record.confirmed = true;
            }
            Message::Adjust { add, .. } => match self.record(number).recipient_window_size.checked_add(add) {
                Some(window) => self.record(number).recipient_window_size = window,
                None => return Refused(vec![CREDIT]),
            },
            Message::Failure { .. } => drop(self.table.channels.remove(&ChannelId(number))),
            Message::Close { .. } => {
                self.table.byte(ChannelId(number), msg::CHANNEL_CLOSE).expect("the draft's encoders do not fail");
                self.table.channels.remove(&ChannelId(number));
            }
            Message::Data { .. } | Message::Eof { .. } => {}
        }
        self.with_room(Inside(message.answer()))
    }

    /// The state's lines, in the format that the README gives.
    fn state(&self, out: &mut String) {
        writeln!(out, "t {}", self.table.last_channel_id.0).unwrap();
        let records = self.records();
        for record in &records {
            record_line(out, record);
        }
        for record in &records {
            for (bytes, code, from) in &record.pending_data {
                let (kind, code) = (code.is_some() as u8, code.unwrap_or(0));
                write!(out, "e {} {kind} {code} {}", record.sender_channel, bytes.len() - from).unwrap();
                hexadecimal(out, &bytes[*from..]);
            }
        }
        let mut rest = &self.table.write[self.table.write_cursor..];
        while let Some((length, tail)) = rest.split_first_chunk() {
            let (payload, tail) = tail.split_at(u32::from_be_bytes(*length) as usize);
            out.push('s');
            hexadecimal(out, payload);
            rest = tail;
        }
        for payload in &self.writer.payloads {
            out.push('o');
            hexadecimal(out, payload);
        }
    }
}

/// The ten fields in the order of `docs/REPLAY.md`.
fn record_line(out: &mut String, record: &ChannelParams) {
    writeln!(
        out,
        "c {} {} {} {} {} {} {} {} {} {}",
        record.recipient_channel,
        record.sender_channel,
        record.recipient_window_size,
        record.sender_window_size,
        record.recipient_maximum_packet_size,
        record.sender_maximum_packet_size,
        record.confirmed as u8,
        record.wants_reply as u8,
        record.pending_eof as u8,
        record.pending_close as u8
    )
    .unwrap();
}

/// The end of a line: a space and the bytes, or nothing for none.
fn hexadecimal(out: &mut String, bytes: &[u8]) {
    const DIGITS: &[u8; 16] = b"0123456789abcdef";
    if !bytes.is_empty() {
        out.push(' ');
    }
    for byte in bytes {
        out.push(DIGITS[*byte as usize >> 4] as char);
        out.push(DIGITS[*byte as usize & 15] as char);
    }
    out.push('\n');
}

/// The answer's line.
pub fn answer_line(values: &[u64]) -> String {
    let values: Vec<String> = values.iter().map(u64::to_string).collect();
    format!("= {}\n", values.join(" "))
}

/// The lines of a call inside the domain: its answer and the state behind it.
pub fn lines(values: &[u64], player: &Player) -> String {
    let mut out = answer_line(values);
    player.state(&mut out);
    out
}
