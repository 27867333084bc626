//! What several tests share.
#![allow(dead_code)]

use oxenhush::{ChannelId, Channels, Peer};

/// The channel of `opened`, by our number.
pub const TWO: ChannelId = ChannelId(2);

/// Channel 2 open for a peer that calls it 7, with our window 64 and limit 32 and the peer's as given.
pub fn opened(sizes: [usize; 3], window_size: u32, maxpacket: u32) -> Channels {
    let mut channels = Channels::new(sizes[0], sizes[1], sizes[2]);
    channels.open_for_peer(TWO, Peer { channel: 7, window_size, maxpacket }, 64, 32).unwrap();
    channels
}

/// The bytes of hexadecimal digits, with spaces and line ends between.
pub fn bytes(hexadecimal: &str) -> Vec<u8> {
    let digits: Vec<u32> = hexadecimal.chars().filter(|c| !c.is_whitespace()).map(|c| c.to_digit(16).unwrap()).collect();
    assert_eq!(digits.len() % 2, 0);
    digits.chunks(2).map(|pair| (pair[0] * 16 + pair[1]) as u8).collect()
}
