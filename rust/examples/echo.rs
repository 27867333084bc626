//! The echo program of the rules: a run of frames on standard input, two channels that send back what they get, and what is sent on
//! standard output.
//!
//!     cargo run --example echo < ../crates/echo/stdin | od -An -tx1 -v

use oxenhush::{Channels, Error, Message};
use std::io::{self, Read, Write};

/// At most so many bytes are read.
const MOST: usize = 16_384;

/// The payload of the frame in front and what follows it, or none where the frame is cut short.
fn next_frame(input: &[u8]) -> Option<(&[u8], &[u8])> {
    let (length, rest) = (input.get(..4)?, &input[4..]);
    let length = u32::from_be_bytes(length.try_into().ok()?) as usize;
    Some((rest.get(..length)?, &rest[length..]))
}

/// What a message is answered with: data with data, EOF with EOF, the others with nothing. Charge and data are two replies: each is made,
/// also where the other is refused.
fn reply(channels: &mut Channels, message: Message) -> Result<(), Error> {
    match message {
        Message::Data { channel, ext, data } => {
            let charged = channels.adjust_window_size(channel, data.len() as u32, 64);
            match ext {
                None => channels.data_with_writer(channel, data, false)?,
                Some(code) => channels.extended_data_with_writer(channel, code, data, false)?,
            };
            charged.map(|_| ())
        }
        Message::Eof { channel } => channels.eof(channel),
        _ => Ok(()),
    }
}

/// What follows each frame: pending data flushed as far as it goes, staged flushed, and sent taken and drained.
fn settle(channels: &mut Channels, output: &mut Vec<u8>) -> Result<(), Error> {
    // A channel that is refused keeps what it has pending.
    let _stopped = channels.flush_all_pending_with_writer(false);
    channels.flush(false)?;
    output.extend_from_slice(channels.sent());
    channels.drain()
}

/// What is sent for a run of frames.
pub fn echo(input: &[u8]) -> Result<Vec<u8>, Error> {
    let mut channels = Channels::new(8_192, 16_384, 16_384);
    for _ in 0..2 {
        channels.new_channel(64, 32)?;
    }
    let mut output = Vec::new();
    let mut rest = &input[..input.len().min(MOST)];
    while let Some((payload, after)) = next_frame(rest) {
        // A refused message is skipped, and a refused reply dropped.
        if let Ok(message) = channels.incoming(payload) {
            let _refused = reply(&mut channels, message);
        }
        settle(&mut channels, &mut output)?;
        rest = after;
    }
    Ok(output)
}

fn main() -> Result<(), Box<dyn std::error::Error>> {
    let mut input = Vec::new();
    io::stdin().take(MOST as u64).read_to_end(&mut input)?;
    io::stdout().write_all(&echo(&input)?)?;
    Ok(())
}
