//! A script of calls in the format of `docs/REPLAY.md`: read and written.

/// One call. The first field of a form is whether it is the writer's.
#[derive(Debug, Clone, PartialEq)]
pub enum Call {
    NewChannel { window: u32, limit: u32 },
    NewChannelId,
    OpenForPeer { number: u32, peer: u32, window: u32, limit: u32, peer_window: u32, peer_limit: u32 },
    Data { writer: bool, rekey: bool, number: u32, code: Option<u32>, bytes: Vec<u8> },
    Eof { number: u32 },
    Close { number: u32 },
    AdjustWindowSize { number: u32, n: u32, target: u32 },
    FlushPending { writer: bool, rekey: bool, number: u32 },
    FlushAllPending { writer: bool, rekey: bool },
    Flush { rekey: bool },
    Drain,
    Incoming { payload: Vec<u8> },
    SenderWindowSize { number: u32 },
    HasPendingData { number: u32 },
    SetCounts { queue: u32, staged: u32, sent: u32, entries: u32 },
    SetByte { which: u8, offset: u32, value: u8 },
}

/// The lengths of queue, staged and sent, and the calls.
#[derive(Debug, Clone)]
pub struct Script {
    pub room: [u32; 3],
    pub calls: Vec<Call>,
}

/// A place in bytes that are read one field after another.
pub struct Reader<'a> {
    pub bytes: &'a [u8],
    pub at: usize,
}

impl Reader<'_> {
    pub fn byte(&mut self) -> Option<u8> {
        let byte = *self.bytes.get(self.at)?;
        self.at += 1;
        Some(byte)
    }

    /// A byte that must be 0 or 1.
    fn flag(&mut self) -> Option<bool> {
        match self.byte()? {
            0 => Some(false),
            1 => Some(true),
            _ => None,
        }
    }

    pub fn integer(&mut self) -> Option<u32> {
        let bytes = self.bytes.get(self.at..self.at + 4)?;
        self.at += 4;
        Some(u32::from_be_bytes(bytes.try_into().unwrap()))
    }

    /// A string's start and length.
    pub fn string(&mut self) -> Option<(usize, usize)> {
        let length = self.integer()? as usize;
        let start = self.at;
        self.bytes.get(start..start.checked_add(length)?)?;
        self.at = start + length;
        Some((start, length))
    }

    fn bytes(&mut self) -> Option<Vec<u8>> {
        let (start, length) = self.string()?;
        Some(self.bytes[start..start + length].to_vec())
    }

    fn call(&mut self) -> Option<Call> {
        Some(match self.byte()? {
            1 => Call::NewChannel { window: self.integer()?, limit: self.integer()? },
            2 => Call::NewChannelId,
            3 => Call::OpenForPeer {
                number: self.integer()?,
                peer: self.integer()?,
                window: self.integer()?,
                limit: self.integer()?,
                peer_window: self.integer()?,
                peer_limit: self.integer()?,
            },
            4 => self.data()?,
            5 => Call::Eof { number: self.integer()? },
            6 => Call::Close { number: self.integer()? },
            7 => Call::AdjustWindowSize { number: self.integer()?, n: self.integer()?, target: self.integer()? },
            8 => Call::FlushPending { writer: self.flag()?, rekey: self.flag()?, number: self.integer()? },
            9 => Call::FlushAllPending { writer: self.flag()?, rekey: self.flag()? },
            10 => Call::Flush { rekey: self.flag()? },
            11 => Call::Drain,
            12 => Call::Incoming { payload: self.bytes()? },
            13 => Call::SenderWindowSize { number: self.integer()? },
            14 => Call::HasPendingData { number: self.integer()? },
            15 => Call::SetCounts { queue: self.integer()?, staged: self.integer()?, sent: self.integer()?, entries: self.integer()? },
            16 => Call::SetByte { which: self.byte()?, offset: self.integer()?, value: self.byte()? },
            _ => return None,
        })
    }

    /// The data call. A plain one's code is read and not used.
    fn data(&mut self) -> Option<Call> {
        let (writer, rekey) = (self.flag()?, self.flag()?);
        let number = self.integer()?;
        let (extended, code) = (self.flag()?, self.integer()?);
        Some(Call::Data { writer, rekey, number, code: extended.then_some(code), bytes: self.bytes()? })
    }
}

impl Script {
    /// The script that the bytes hold; none if it has a form that `replay` ends with a `!` line.
    pub fn read(bytes: &[u8]) -> Option<Script> {
        let mut reader = Reader { bytes, at: 0 };
        let room = [reader.integer()?, reader.integer()?, reader.integer()?];
        let mut calls = Vec::new();
        while reader.at < bytes.len() {
            calls.push(reader.call()?);
        }
        Some(Script { room, calls })
    }

    pub fn write(&self) -> Vec<u8> {
        let mut out = Vec::new();
        integers(&mut out, &self.room);
        for call in &self.calls {
            call.write(&mut out);
        }
        out
    }
}

fn integers(out: &mut Vec<u8>, values: &[u32]) {
    for value in values {
        out.extend_from_slice(&value.to_be_bytes());
    }
}

fn string(out: &mut Vec<u8>, bytes: &[u8]) {
    integers(out, &[bytes.len() as u32]);
    out.extend_from_slice(bytes);
}

impl Call {
    /// The call's number in the format.
    pub fn kind(&self) -> u8 {
        match self {
            Call::NewChannel { .. } => 1,
            Call::NewChannelId => 2,
            Call::OpenForPeer { .. } => 3,
            Call::Data { .. } => 4,
            Call::Eof { .. } => 5,
            Call::Close { .. } => 6,
            Call::AdjustWindowSize { .. } => 7,
            Call::FlushPending { .. } => 8,
            Call::FlushAllPending { .. } => 9,
            Call::Flush { .. } => 10,
            Call::Drain => 11,
            Call::Incoming { .. } => 12,
            Call::SenderWindowSize { .. } => 13,
            Call::HasPendingData { .. } => 14,
            Call::SetCounts { .. } => 15,
            Call::SetByte { .. } => 16,
        }
    }

    fn write(&self, out: &mut Vec<u8>) {
        out.push(self.kind());
        match self {
            Call::NewChannelId | Call::Drain => {}
            Call::NewChannel { window, limit } => integers(out, &[*window, *limit]),
            Call::OpenForPeer { number, peer, window, limit, peer_window, peer_limit } => {
                integers(out, &[*number, *peer, *window, *limit, *peer_window, *peer_limit])
            }
            Call::Data { writer, rekey, number, code, bytes } => {
                out.extend_from_slice(&[*writer as u8, *rekey as u8]);
                integers(out, &[*number]);
                out.push(code.is_some() as u8);
                integers(out, &[code.unwrap_or(0)]);
                string(out, bytes);
            }
            Call::Eof { number } | Call::Close { number } | Call::SenderWindowSize { number } | Call::HasPendingData { number } => {
                integers(out, &[*number])
            }
            Call::AdjustWindowSize { number, n, target } => integers(out, &[*number, *n, *target]),
            Call::FlushPending { writer, rekey, number } => {
                out.extend_from_slice(&[*writer as u8, *rekey as u8]);
                integers(out, &[*number]);
            }
            Call::FlushAllPending { writer, rekey } => out.extend_from_slice(&[*writer as u8, *rekey as u8]),
            Call::Flush { rekey } => out.push(*rekey as u8),
            Call::Incoming { payload } => string(out, payload),
            Call::SetCounts { queue, staged, sent, entries } => integers(out, &[*queue, *staged, *sent, *entries]),
            Call::SetByte { which, offset, value } => {
                out.push(*which);
                integers(out, &[*offset]);
                out.push(*value);
            }
        }
    }
}
