//! The rules' cases, played on the draft: what the player shows is what the rules say.

use crate::player::{
    Outcome::{self, Inside, Refused},
    Player,
};
use crate::script::{Call, Script};

const ROOM: [u32; 3] = [8_192, 16_384, 16_384];

/// A table with channel 2, given the peer's number 7, our window and limit 64, and the peer's.
fn opened(room: [u32; 3], window: u32, peer_window: u32, peer_limit: u32) -> Player {
    let mut player = Player::new(room);
    let call = Call::OpenForPeer { number: 2, peer: 7, window, limit: 64, peer_window, peer_limit };
    assert_eq!(player.play(&call), Inside(vec![0]));
    player
}

fn data(writer: bool, rekey: bool, bytes: &[u8]) -> Call {
    Call::Data { writer, rekey, number: 2, code: None, bytes: bytes.to_vec() }
}

fn adjust(player: &mut Player, n: u32, target: u32) -> (Outcome, u32) {
    let answer = player.play(&Call::AdjustWindowSize { number: 2, n, target });
    let staged = &player.table.write;
    let add = staged.len().checked_sub(4).map_or(0, |at| u32::from_be_bytes(staged[at..].try_into().unwrap()));
    (answer, add)
}

#[test]
fn numbers_start_at_two() {
    let mut player = Player::new(ROOM);
    for number in [2, 3] {
        assert_eq!(player.play(&Call::NewChannel { window: 64, limit: 32 }), Inside(vec![0, number]));
    }
}

#[test]
fn numbers_go_round() {
    let mut player = Player::new(ROOM);
    player.table.last_channel_id.0 = u32::MAX;
    for number in [0, 1] {
        player.play(&Call::OpenForPeer { number, peer: 7, window: 0, limit: 0, peer_window: 0, peer_limit: 0 });
    }
    assert_eq!(player.play(&Call::NewChannel { window: 64, limit: 32 }), Inside(vec![0, 2]));
}

#[test]
fn eight_bytes_at_window_five_and_limit_three() {
    let mut player = opened(ROOM, 64, 5, 3);
    assert_eq!(player.play(&data(false, false, b"abcdefgh")), Inside(vec![0, 5]));
    assert_eq!(player.counts(), [3, 31, 0, 1]);
}

#[test]
fn limit_zero() {
    let mut player = opened(ROOM, 64, 0, 0);
    assert_eq!(player.play(&data(false, false, b"a")), Inside(vec![4]));
    assert_eq!(player.counts(), [0, 0, 0, 0]);
    assert_eq!(player.play(&data(false, true, b"a")), Inside(vec![0, 0]));
    assert_eq!(player.counts(), [1, 0, 0, 1]);
    assert_eq!(player.play(&Call::FlushPending { writer: false, rekey: false, number: 2 }), Refused(vec![4]));
}

#[test]
fn flush_of_all_stops_at_limit_zero() {
    let mut player = opened(ROOM, 64, 9, 0);
    player.play(&data(false, true, b"a"));
    assert_eq!(player.play(&Call::FlushAllPending { writer: true, rekey: false }), Refused(vec![4, 2]));
}

#[test]
fn empty_data() {
    let mut player = opened(ROOM, 64, 5, 3);
    assert_eq!(player.play(&data(false, false, b"")), Inside(vec![0, 0]));
    assert_eq!(player.play(&Call::HasPendingData { number: 2 }), Inside(vec![0, 0]));
    assert_eq!(player.play(&data(false, true, b"")), Inside(vec![0, 0]));
    assert_eq!(player.play(&Call::HasPendingData { number: 2 }), Inside(vec![0, 1]));
    assert_eq!(player.counts(), [0, 0, 0, 1]);
}

#[test]
fn receive_windows() {
    assert_eq!(adjust(&mut opened(ROOM, 64, 0, 0), 32, 64), (Inside(vec![0, 0]), 0));
    assert_eq!(adjust(&mut opened(ROOM, 64, 0, 0), 33, 64), (Inside(vec![0, 1]), 33));
    assert_eq!(adjust(&mut opened(ROOM, 0, 0, 0), 0, 1), (Inside(vec![0, 0]), 0));
    assert_eq!(adjust(&mut opened(ROOM, 10, 0, 0), 11, 20), (Inside(vec![0, 0]), 0));
    assert_eq!(adjust(&mut opened(ROOM, 10, 0, 0), 1, 20), (Inside(vec![0, 1]), 11));
}

#[test]
fn credit() {
    let add = |n: u32| {
        let payload = [&[93, 0, 0, 0, 2][..], &n.to_be_bytes()].concat();
        opened(ROOM, 64, 4_294_967_290, 3).play(&Call::Incoming { payload })
    };
    assert_eq!(add(5), Inside(vec![0, 93, 2, 5]));
    assert_eq!(add(6), Refused(vec![6]));
}

#[test]
fn four_extended_bytes() {
    let mut player = opened(ROOM, 64, 5, 5);
    let call = Call::Data { writer: false, rekey: false, number: 2, code: Some(1), bytes: b"abcd".to_vec() };
    assert_eq!(player.play(&call), Inside(vec![0, 4]));
    assert_eq!(player.counts(), [0, 21, 0, 0]);
}

#[test]
fn last_byte_with_both_marks() {
    let mut player = opened(ROOM, 64, 5, 5);
    player.play(&data(true, true, b"a"));
    player.play(&Call::Eof { number: 2 });
    player.play(&Call::Close { number: 2 });
    let flush = Call::FlushPending { writer: true, rekey: false, number: 2 };
    assert_eq!(player.play(&flush), Inside(vec![0, 1, 1, 1, 1]));
    assert_eq!(player.counts(), [0, 18, 14, 0]);
    assert!(player.records().is_empty());
}

#[test]
fn room_in_staged() {
    assert_eq!(opened([0, 15, 0], 64, 5, 5).play(&data(false, false, b"abc")), Refused(vec![5]));
    assert_eq!(opened([0, 16, 0], 64, 5, 5).play(&data(false, false, b"abc")), Inside(vec![0, 3]));
}

#[test]
fn the_thirty_third_opening() {
    let mut player = Player::new(ROOM);
    for number in 2..34 {
        assert_eq!(player.play(&Call::NewChannel { window: 0, limit: 0 }), Inside(vec![0, number]));
    }
    assert_eq!(player.copy().play(&Call::NewChannelId), Refused(vec![5]));
    assert_eq!(player.play(&Call::NewChannel { window: 0, limit: 0 }), Refused(vec![5]));
}

#[test]
fn unconfirmed_and_unknown() {
    let mut player = Player::new(ROOM);
    player.play(&Call::NewChannel { window: 64, limit: 32 });
    assert_eq!(player.play(&Call::Eof { number: 2 }), Refused(vec![3]));
    assert_eq!(player.play(&Call::Eof { number: 3 }), Inside(vec![2]));
    assert_eq!(player.play(&data(true, false, b"a")), Refused(vec![3]));
}

/// The calls that the echo program makes for one frame of its input, and what it writes.
fn echo(player: &mut Player, calls: &[Call]) -> Vec<Vec<u8>> {
    for call in calls {
        assert!(matches!(player.play(call), Inside(_)));
    }
    player.play(&Call::FlushAllPending { writer: true, rekey: false });
    player.play(&Call::Flush { rekey: false });
    let sent = player.writer.payloads.clone();
    player.play(&Call::Drain);
    sent
}

#[test]
fn echo_program() {
    let mut player = Player::new(ROOM);
    for _ in 0..2 {
        player.play(&Call::NewChannel { window: 64, limit: 32 });
    }
    let incoming = |payload: &[u8]| Call::Incoming { payload: payload.to_vec() };
    let confirmed = incoming(b"\x5b\0\0\0\x02\0\0\0\x07\0\0\0\x05\0\0\0\x03");
    let charge = Call::AdjustWindowSize { number: 2, n: 8, target: 64 };
    let bytes = [incoming(b"\x5e\0\0\0\x02\0\0\0\x08abcdefgh"), charge, data(true, false, b"abcdefgh")];
    let end = [incoming(b"\x60\0\0\0\x02"), Call::Eof { number: 2 }];
    let mut sent = echo(&mut player, &[confirmed]);
    sent.extend(echo(&mut player, &bytes));
    sent.extend(echo(&mut player, &end));
    sent.extend(echo(&mut player, &[incoming(b"\x5d\0\0\0\x02\0\0\0\x03")]));
    let expected: [&[u8]; 4] =
        [b"\x5e\0\0\0\x07\0\0\0\x03abc", b"\x5e\0\0\0\x07\0\0\0\x02de", b"\x5e\0\0\0\x07\0\0\0\x03fgh", b"\x60\0\0\0\x07"];
    assert_eq!(sent, expected);
}

#[test]
fn a_script_reads_back() {
    let mut random = crate::generate::Random(1);
    for _ in 0..200 {
        let script = crate::generate::script(&mut random, true);
        assert_eq!(Script::read(&script.write()).unwrap().calls, script.calls);
    }
}

#[test]
fn scripts_reach_the_edges() {
    let mut random = crate::generate::Random(2);
    let (mut channels, mut entries, mut longest, mut calls) = (0, 0, 0, 0);
    for _ in 0..1_000 {
        let script = crate::generate::script(&mut random, false);
        let mut player = Player::new(script.room);
        let inside = |player: &mut Player, call| matches!(player.play(call), Inside(_));
        let mut reached = [false; 2];
        for call in &script.calls {
            if !inside(&mut player, call) {
                break;
            }
            calls += 1;
            reached[0] |= player.table.channels.len() == 32;
            reached[1] |= player.counts()[3] == 64;
        }
        channels += reached[0] as u32;
        entries += reached[1] as u32;
        longest = longest.max(script.calls.len());
        assert!(script.write().len() <= 262_144);
    }
    println!("32 channels {channels}, 64 entries {entries}, longest {longest}, calls {calls}");
    assert!(channels > 5 && entries > 5 && longest > 1_000 && calls > 25_000);
}
