//! The cases: a call, the frames that are staged before it, and the channels of the table.

use std::fmt;

/// The call that is timed.
#[derive(Clone, Copy, PartialEq)]
pub enum Call {
    /// So many bytes in packets of the limit, all within the peer's window; straight is the writer form.
    Data { straight: bool, size: usize, limit: u32 },
    /// The pending flush of one channel, with so many entries of 64 bytes, all of which go out.
    FlushPending { entries: usize },
    /// An incoming WINDOW_ADJUST.
    Adjust,
    /// Incoming data of 64 bytes.
    Received,
    /// `new_channel`, where one place is free.
    Open,
    /// `close` of a channel with nothing pending.
    Close,
}

pub struct Case {
    pub call: Call,
    pub staged_frames: usize,
    /// The last of them is the one that is called.
    pub channels: u32,
}

/// How many channels a row's tables have.
pub const CHANNELS: [u32; 3] = [1, 8, 32];

/// The number of the first channel; the others follow.
pub const FIRST: u32 = 2;

impl Case {
    /// The number of the channel that the call is about.
    pub fn number(&self) -> u32 {
        FIRST + self.channels - 1
    }

    /// The peer's packet limit.
    pub fn limit(&self) -> u32 {
        match self.call {
            Call::Data { limit, .. } => limit,
            _ => 32 * 1024,
        }
    }

    /// The bytes that the call puts into one buffer: its data in packets, or its message.
    pub fn output(&self) -> usize {
        match self.call {
            Call::Data { size, limit, .. } => size + size.div_ceil(limit as usize) * 13,
            Call::FlushPending { entries } => entries * (64 + 13),
            _ => 16,
        }
    }

    /// Calls in a round: fewer where a call or a fresh state takes long.
    pub fn calls(&self) -> u32 {
        match self.call {
            Call::Data { size, .. } if size > 4096 => 2_000,
            Call::FlushPending { .. } => 4_000,
            _ => 10_000,
        }
    }

    /// The payload of an incoming message.
    pub fn payload(&self) -> Vec<u8> {
        let mut payload = vec![if self.call == Call::Adjust { 93 } else { 94 }];
        payload.extend(self.number().to_be_bytes());
        payload.extend(64u32.to_be_bytes());
        if self.call == Call::Received {
            payload.extend([7; 64]);
        }
        payload
    }
}

/// The first two columns of a row.
impl fmt::Display for Case {
    fn fmt(&self, f: &mut fmt::Formatter<'_>) -> fmt::Result {
        let bytes = |n: usize| if n < 1024 { format!("{n} B") } else { format!("{} KiB", n / 1024) };
        let call = match self.call {
            Call::Data { straight, size, limit } => {
                let form = if straight { "data_with_writer" } else { "data" };
                format!("`{form}`, {} in packets of {}", bytes(size), bytes(limit as usize))
            }
            Call::FlushPending { entries } => format!("`flush_pending`, entries: {entries}"),
            Call::Adjust => "`incoming`, 93".into(),
            Call::Received => "`incoming`, 94 of 64 B".into(),
            Call::Open => "`new_channel`".into(),
            Call::Close => "`close`".into(),
        };
        write!(f, "| {call} | {}", self.staged_frames)
    }
}

/// Every row whose frames fit staged's 65,536 bytes, with the most channels.
pub fn rows() -> Vec<Case> {
    let mut calls = Vec::new();
    for straight in [false, true] {
        for limit in [32, 32 * 1024] {
            for size in [64, 1024, 16 * 1024, 60 * 1024] {
                calls.push(Call::Data { straight, size, limit });
            }
        }
    }
    calls.extend([1, 8, 64].map(|entries| Call::FlushPending { entries }));
    calls.extend([Call::Adjust, Call::Received, Call::Open, Call::Close]);
    let rows = calls.into_iter().flat_map(|call| [0, 500].map(|staged_frames| Case { call, staged_frames, channels: 32 }));
    rows.filter(|case| case.output() + case.staged_frames * 9 <= 65_536).collect()
}
