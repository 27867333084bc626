//! Random calls, one after the other, through the wrapper: each gives an answer, what is read of a message is what stands in it, and a
//! refusal changes nothing.

#[path = "support/random.rs"]
mod random;

use oxenhush::{ChannelId, Channels, Error, Message, Peer};
use random::Random;

/// A payload, and the message that it is.
fn message<'a>(random: &mut Random, channel: ChannelId, text: &'a [u8]) -> (Vec<u8>, Message<'a>) {
    let (a, b, c) = (random.number(), random.number(), random.number());
    let data = &text[..random.below(text.len())];
    let string = [&(data.len() as u32).to_be_bytes()[..], data].concat();
    let integers = |all: &[u32]| all.iter().flat_map(|n| n.to_be_bytes()).collect::<Vec<u8>>();
    let (kind, fields, message) = match random.below(7) {
        0 => (91, integers(&[a, b, c]), Message::OpenConfirmation { channel, peer: Peer { channel: a, window_size: b, maxpacket: c } }),
        1 => {
            let fields = [integers(&[a]), string, vec![0; 4]].concat();
            (92, fields, Message::OpenFailure { channel, reason: a, description: data, language: b"" })
        }
        2 => (93, integers(&[a]), Message::WindowAdjust { channel, add: a }),
        3 => (94, string, Message::Data { channel, ext: None, data }),
        4 => (95, [integers(&[a]), string].concat(), Message::Data { channel, ext: Some(a), data }),
        5 => (96, vec![], Message::Eof { channel }),
        _ => (97, vec![], Message::Close { channel }),
    };
    ([vec![kind], integers(&[channel.0]), fields].concat(), message)
}

/// A message that is whole, or any bytes.
fn receive(channels: &mut Channels, random: &mut Random, channel: ChannelId) -> Result<(), Error> {
    let text = random.bytes(40);
    if random.once_in(4) {
        let length = random.length();
        return channels.incoming(&random.bytes(length)).map(drop);
    }
    let (payload, whole) = message(random, channel, &text);
    channels.incoming(&payload).map(|message| assert_eq!(message, whole))
}

/// One call with random arguments.
fn call(channels: &mut Channels, random: &mut Random) -> Result<(), Error> {
    let channel = ChannelId(if random.once_in(8) { random.number() } else { random.below(6) as u32 });
    let rekey = random.once_in(3);
    let buf = vec![0x61; random.length()];
    let (a, b, c) = (random.number(), random.number(), random.number());
    match random.below(24) {
        0 => channels.new_channel(a, b).map(drop),
        1 => channels.new_channel_id().map(drop),
        2 => channels.open_for_peer(channel, Peer { channel: a, window_size: b, maxpacket: c }, b, c),
        3 | 4 => channels.data(channel, &buf, rekey).map(|framed| assert!(framed <= buf.len())),
        5 | 6 => channels.data_with_writer(channel, &buf, rekey).map(|framed| assert!(framed <= buf.len())),
        7 => channels.extended_data(channel, a, &buf, rekey).map(|framed| assert!(framed <= buf.len())),
        8 => channels.extended_data_with_writer(channel, a, &buf, rekey).map(|framed| assert!(framed <= buf.len())),
        9 => channels.eof(channel),
        10 if random.once_in(4) => channels.close(channel),
        11 => channels.adjust_window_size(channel, a, b).map(drop),
        12 => channels.sender_window_size(channel).map(drop),
        13 => channels.has_pending_data(channel).map(drop),
        14 => channels.flush_pending(channel).map(drop),
        15 => channels.flush_pending_with_writer(channel, rekey).map(drop),
        16 => channels.flush(rekey).map(drop),
        17 => channels.drain(),
        _ => receive(channels, random, channel),
    }
}

#[test]
fn a_refusal_changes_nothing() {
    let mut random = Random(4);
    let mut refusals = [0; 9];
    for _ in 0..200 {
        let mut channels = Channels::new(random.length(), random.length(), random.length());
        for _ in 0..60 {
            let before = channels.clone();
            match call(&mut channels, &mut random) {
                Ok(()) => refusals[0] += 1,
                Err(error) => {
                    assert!(channels == before, "{error}");
                    refusals[error.number() as usize] += 1;
                }
            }
            let used = channels.pending().map(|p| p.left).sum::<usize>();
            assert_eq!(used, channels.queue().len());
            // Each flush of all channels stops somewhere or is done.
            let _stopped = channels.flush_all_pending();
            let _stopped = channels.flush_all_pending_with_writer(random.either());
        }
    }
    assert!(refusals.iter().all(|n| *n > 0), "{refusals:?}");
}

#[test]
fn it_can_be_shared() {
    fn is<T: Send + Sync + Clone + std::fmt::Debug>() {}
    is::<Channels>();
    assert!(format!("{:?}", Channels::new(8, 8, 8)).contains("channels: []"));
}
