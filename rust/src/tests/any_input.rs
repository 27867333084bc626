//! Any table, any buffers, any arguments: every exported call gives an answer, it is 1 exactly where the state is not sound, a refusal
//! changes nothing, and sound goes to sound.

use super::random::Random;
use super::state::{any_state, damaged_state, sound_state, State};
use crate::ffi::{self, Numbers};

/// A call with random arguments.
type Call = fn(&mut State, &mut Random) -> Numbers;

/// A channel's number: mostly one in use.
fn number(state: &State, random: &mut Random) -> u32 {
    let used = state.used();
    if used.is_empty() || random.once_in(8) {
        return random.number();
    }
    random.one_of(&used).sender_channel
}

/// Bytes for a data call.
fn data(random: &mut Random) -> Vec<u8> {
    let length = random.length();
    random.bytes(length)
}

/// A payload: one of the messages 91 to 97, at times with a byte more, a byte less or one changed; or any bytes.
fn payload(state: &State, random: &mut Random) -> Vec<u8> {
    if random.once_in(4) {
        return data(random);
    }
    let kind = 91 + random.below(7);
    let mut all = vec![kind as u8];
    all.extend_from_slice(&number(state, random).to_be_bytes());
    let (integers, strings) = [(3, 0), (1, 2), (1, 0), (0, 1), (1, 1), (0, 0), (0, 0)][kind - 91];
    for _ in 0..integers {
        all.extend_from_slice(&random.number().to_be_bytes());
    }
    for _ in 0..strings {
        let text = random.below(20);
        all.extend_from_slice(&(text as u32).to_be_bytes());
        all.extend_from_slice(&random.bytes(text));
    }
    match random.below(12) {
        0 => all.push(0),
        1 => drop(all.pop()),
        2 => all[random.below(9).min(4)] ^= 1 << random.below(8),
        _ => {}
    }
    all
}

/// Every exported call that takes a table, with the counts of values that it may answer where it is not refused (docs/REPLAY.md).
#[rustfmt::skip]
const CALLS: [(&str, &[u32], Call); 19] = [
    ("new_channel", &[1], |s, r| ffi::new_channel(&mut s.table, &s.queue, &s.staged, &s.sent, r.number(), r.number())),
    ("new_channel_id", &[1], |s, _| ffi::new_channel_id(&mut s.table, &s.queue, &s.staged, &s.sent)),
    ("open_for_peer", &[0], |s, r| {
        let n = if r.either() { r.number() } else { number(s, r) };
        ffi::open_for_peer(&mut s.table, &s.queue, &s.staged, &s.sent, n, r.number(), r.number(), r.number(), r.number(), r.number())
    }),
    ("data", &[1], |s, r| {
        let (n, buf) = (number(s, r), data(r));
        ffi::data(&mut s.table, &mut s.queue, &mut s.staged, &s.sent, n, &buf, r.once_in(3))
    }),
    ("data_with_writer", &[1], |s, r| {
        let (n, buf) = (number(s, r), data(r));
        ffi::data_with_writer(&mut s.table, &mut s.queue, &mut s.staged, &mut s.sent, n, &buf, r.once_in(3))
    }),
    ("extended_data", &[1], |s, r| {
        let (n, buf) = (number(s, r), data(r));
        ffi::extended_data(&mut s.table, &mut s.queue, &mut s.staged, &s.sent, n, r.number(), &buf, r.once_in(3))
    }),
    ("extended_data_with_writer", &[1], |s, r| {
        let (n, buf) = (number(s, r), data(r));
        ffi::extended_data_with_writer(&mut s.table, &mut s.queue, &mut s.staged, &mut s.sent, n, r.number(), &buf, r.once_in(3))
    }),
    ("eof", &[0], |s, r| {
        let n = number(s, r);
        ffi::eof(&mut s.table, &s.queue, &mut s.staged, &s.sent, n)
    }),
    ("close", &[0], |s, r| {
        let n = number(s, r);
        ffi::close(&mut s.table, &s.queue, &mut s.staged, &s.sent, n)
    }),
    ("adjust_window_size", &[1], |s, r| {
        let n = number(s, r);
        ffi::adjust_window_size(&mut s.table, &s.queue, &mut s.staged, &s.sent, n, r.number(), r.number())
    }),
    ("sender_window_size", &[1], |s, r| ffi::sender_window_size(&s.table, &s.queue, &s.staged, &s.sent, number(s, r))),
    ("has_pending_data", &[1], |s, r| ffi::has_pending_data(&s.table, &s.queue, &s.staged, &s.sent, number(s, r))),
    ("flush_pending", &[2, 4], |s, r| {
        let n = number(s, r);
        ffi::flush_pending(&mut s.table, &mut s.queue, &mut s.staged, &s.sent, n)
    }),
    ("flush_pending_with_writer", &[2, 4], |s, r| {
        let n = number(s, r);
        ffi::flush_pending_with_writer(&mut s.table, &mut s.queue, &mut s.staged, &mut s.sent, n, r.once_in(3))
    }),
    ("flush_all_pending", &[0], |s, _| ffi::flush_all_pending(&mut s.table, &mut s.queue, &mut s.staged, &s.sent)),
    ("flush_all_pending_with_writer", &[0], |s, r| {
        ffi::flush_all_pending_with_writer(&mut s.table, &mut s.queue, &mut s.staged, &mut s.sent, r.once_in(3))
    }),
    ("flush", &[1, 3], |s, r| ffi::flush(&mut s.table, &s.queue, &mut s.staged, &mut s.sent, r.once_in(3))),
    ("drain", &[0], |s, _| ffi::drain(&mut s.table, &s.queue, &s.staged, &mut s.sent)),
    ("incoming", &[2, 3, 4, 5, 7], |s, r| {
        let message = payload(s, r);
        ffi::incoming(&mut s.table, &mut s.queue, &mut s.staged, &s.sent, &message)
    }),
];

/// What the rules say of every call, whatever the state.
fn hold(name: &str, counts: &[u32], before: &State, after: &State, answer: &Numbers) {
    let of_all = name.starts_with("flush_all");
    let sound = before.is_sound();
    assert_eq!(answer.refusal == 1, !sound, "{name}: 1 is the answer exactly where the state is not sound");
    assert!(answer.refusal <= 8, "{name}");
    assert!(answer.values.iter().skip(answer.count as usize).all(|v| *v == 0), "{name}: values past the count");
    match answer.refusal {
        0 => assert!(counts.contains(&answer.count), "{name}: {answer:?}"),
        refusal => assert_eq!(answer.count, u32::from(of_all && refusal != 1), "{name}: {answer:?}"),
    }
    if answer.refusal != 0 && (!of_all || answer.refusal == 1) {
        assert!(after == before, "{name}: {answer:?}: a refusal changed something");
    }
    assert!(!sound || after.is_sound(), "{name}: {answer:?}: sound went to unsound");
}

/// Plays every call on `rounds` states each; gives how often each refusal, or 0, was answered.
fn play(seed: u64, rounds: usize, draw: fn(&mut Random) -> State) -> [usize; 9] {
    let mut random = Random(seed);
    let mut answers = [0; 9];
    for (name, counts, call) in CALLS {
        for _ in 0..rounds {
            let before = draw(&mut random);
            let mut after = before.clone();
            let answer = call(&mut after, &mut random);
            hold(name, counts, &before, &after, &answer);
            answers[answer.refusal as usize] += 1;
        }
    }
    answers
}

#[test]
fn any_numbers() {
    let answers = play(1, 200, any_state);
    assert_eq!(answers[1], 19 * 200);
}

#[test]
fn sound_states() {
    let answers = play(2, 600, sound_state);
    assert_eq!(answers[1], 0);
    assert!([0, 2, 3, 4, 5, 6, 7, 8].iter().all(|k| answers[*k] > 0), "{answers:?}");
}

#[test]
fn damaged_states() {
    let answers = play(3, 600, damaged_state);
    assert!(answers[0] > 0 && answers[1] > 0, "{answers:?}");
}
