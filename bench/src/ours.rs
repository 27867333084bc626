//! Our side: the crate `oxenhush`.

use crate::cases::{Call, Case, FIRST};
use oxenhush::{Channels, Peer};

/// The channels before the call, the payload or data that goes in.
#[derive(Clone)]
pub struct State {
    channels: Channels,
    bytes: Vec<u8>,
}

/// Frames of 9 bytes: EOF again and again, and the CLOSE of a channel that is not there afterwards.
fn stage(channels: &mut Channels, peer: Peer, frames: usize) {
    if frames > 0 {
        channels.open_for_peer(1.into(), peer, 1 << 20, 32 * 1024).unwrap();
        (1..frames).for_each(|_| channels.eof(1.into()).unwrap());
        channels.close(1.into()).unwrap();
    }
}

impl State {
    pub fn new(case: &Case) -> State {
        let staged = case.output() + case.staged_frames * 9;
        let mut channels = Channels::new(64 * 64, staged, case.output());
        let window_size = if matches!(case.call, Call::FlushPending { .. }) { 0 } else { 1 << 30 };
        let peer = |channel| Peer { channel, window_size, maxpacket: case.limit() };
        stage(&mut channels, peer(1), case.staged_frames);
        // The channel to be opened is the last one.
        let opened = case.channels - (case.call == Call::Open) as u32;
        for number in FIRST..FIRST + opened {
            channels.open_for_peer(number.into(), peer(number), 1 << 20, 32 * 1024).unwrap();
        }
        let mut bytes = vec![7; if let Call::Data { size, .. } = case.call { size } else { 64 }];
        match case.call {
            Call::FlushPending { entries } => {
                (0..entries).for_each(|_| assert_eq!(channels.data(case.number().into(), &bytes, false), Ok(0)));
                let credit = [&[93], &case.number().to_be_bytes()[..], &8192u32.to_be_bytes()].concat();
                channels.incoming(&credit).unwrap();
            }
            Call::Adjust | Call::Received => bytes = case.payload(),
            _ => {}
        }
        State { channels, bytes }
    }

    /// Makes the call; the number that it answers shows that it was made.
    pub fn call(&mut self, case: &Case) -> usize {
        let (channels, number) = (&mut self.channels, case.number().into());
        match case.call {
            Call::Data { straight: false, .. } => channels.data(number, &self.bytes, false).unwrap(),
            Call::Data { straight: true, .. } => channels.data_with_writer(number, &self.bytes, false).unwrap(),
            Call::FlushPending { .. } => channels.flush_pending(number).unwrap().wrote(),
            Call::Adjust | Call::Received => channels.incoming(&self.bytes).unwrap().channel().0 as usize,
            Call::Open => channels.new_channel(1 << 20, 32 * 1024).unwrap().0 as usize,
            Call::Close => channels.close(number).map(|()| 0).unwrap(),
        }
    }
}
