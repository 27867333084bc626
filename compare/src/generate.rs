//! Random scripts. Each call is tried on the draft as it is drawn, so that nearly all stay inside the domain.

use crate::player::{Outcome, Player};
use crate::script::{Call, Script};
use crate::standins::ChannelParams;

/// Integers at which something changes, in windows, limits, numbers and counts.
const EDGES: [u32; 18] = [0, 1, 2, 3, 4, 5, 7, 8, 31, 32, 33, 64, 255, 65_536, 0x7fff_ffff, 0x8000_0000, 0xffff_fffe, 0xffff_ffff];

/// A small random generator (splitmix64), so that a seed gives the same scripts anywhere.
pub struct Random(pub u64);

impl Random {
    fn next(&mut self) -> u64 {
        self.0 = self.0.wrapping_add(0x9e37_79b9_7f4a_7c15);
        let mut z = self.0;
        z = (z ^ (z >> 30)).wrapping_mul(0xbf58_476d_1ce4_e5b9);
        z = (z ^ (z >> 27)).wrapping_mul(0x94d0_49bb_1331_11eb);
        z ^ (z >> 31)
    }

    /// A number below n.
    pub fn below(&mut self, n: u32) -> u32 {
        (self.next() % n as u64) as u32
    }

    /// A number from low to high, both included.
    fn between(&mut self, low: u32, high: u32) -> u32 {
        low + self.below(high - low + 1)
    }

    pub fn percent(&mut self, percent: u32) -> bool {
        self.below(100) < percent
    }

    fn pick<T: Copy>(&mut self, from: &[T]) -> T {
        from[self.below(from.len() as u32) as usize]
    }

    /// One of the values, or one beside it.
    fn near(&mut self, values: &[u32]) -> u32 {
        let value = self.pick(values);
        match self.below(4) {
            0 => value.wrapping_sub(1),
            1 => value.wrapping_add(1),
            _ => value,
        }
    }

    /// A window or limit: mostly small, so that it is used up, else an edge or anything.
    fn size(&mut self) -> u32 {
        match self.below(10) {
            0..=5 => self.between(0, 40),
            6 => self.between(41, 400),
            7 | 8 => self.pick(&EDGES),
            _ => self.next() as u32,
        }
    }

    fn bytes(&mut self, length: u32) -> Vec<u8> {
        (0..length).map(|_| self.next() as u8).collect()
    }
}

/// What the calls of one script are like.
struct Bent {
    calls: u32,
    channels: u32,
    rekey: u32,
    writer: u32,
    /// Of a hundred pending flushes that were drawn, how many give way to data, so that entries pile up.
    hoard: u32,
    longest: u32,
    /// Of a thousand calls outside the domain that were drawn, how many stay and end the comparison.
    outside: u32,
}

/// A lent buffer's length: none or too short for a frame, short, middling, or the longest.
fn length(random: &mut Random, class: u32) -> u32 {
    match class {
        0..=3 => random.pick(&[0, 8, 9, 12, 13, 14, 17, 18, 30]),
        4..=29 => random.between(20, 120),
        30..=74 => random.between(100, 700),
        75..=96 => random.between(500, 5_000),
        _ => random.pick(&[32_768, 65_535, 65_536]),
    }
}

/// The three lengths, mostly of one class.
fn room(random: &mut Random, small: bool) -> [u32; 3] {
    let class = if small { random.between(20, 60) } else { random.below(100) };
    let mixed = !small && random.percent(25);
    [0; 3].map(|_| {
        let own = if mixed { random.below(100) } else { class };
        length(random, own)
    })
}

/// Draws what a script is like. One in ten hoards entries.
fn bent(random: &mut Random, room: [u32; 3], small: bool) -> Bent {
    let calls = match random.below(100) {
        _ if small => random.between(8, 24),
        _ if room.iter().max() > Some(&5_000) => random.between(1, 60),
        0..=24 => random.between(1, 12),
        25..=69 => random.between(10, 50),
        70..=96 => random.between(40, 160),
        _ => random.between(200, 1_200),
    };
    let channels = match random.below(4) {
        _ if small => random.between(1, 4),
        0 => random.between(1, 2),
        1 | 2 => random.between(2, 9),
        _ => random.between(8, 40).min(32),
    };
    let largest = *room.iter().max().unwrap();
    let bent = Bent {
        calls,
        channels,
        rekey: random.pick(&[0, 0, 10, 30, 60, 95]),
        writer: random.pick(&[0, 50, 50, 50, 100]),
        hoard: 0,
        longest: if small { 24 } else { random.pick(&[20, 100, largest + 20]).min(60_000) },
        outside: if small { 0 } else { random.pick(&[0, 5, 30]) },
    };
    if small || largest > 5_000 || random.percent(90) {
        return bent;
    }
    Bent { calls: random.between(60, 300), hoard: 97, rekey: 95, longest: random.between(3, 12), ..bent }
}

/// A script. A small one has few calls, few channels and short data, and none outside the domain.
pub fn script(random: &mut Random, small: bool) -> Script {
    let room = room(random, small);
    let bent = bent(random, room, small);
    let mut script = Script { room, calls: Vec::new() };
    let mut player = Player::new(room);
    let mut bytes = 0;
    while (script.calls.len() as u32) < bent.calls && bytes < 200_000 {
        let Some((call, next)) = inside(random, &bent, &player) else { return script };
        bytes += if let Call::Data { bytes, .. } = &call { bytes.len() + 32 } else { 64 };
        script.calls.push(call);
        match next {
            Some(next) => player = next,
            None => break,
        }
    }
    script
}

/// A call and the state behind it, which is none for a call outside the domain that is to end the script.
fn inside(random: &mut Random, bent: &Bent, player: &Player) -> Option<(Call, Option<Player>)> {
    for _ in 0..40 {
        let call = draw(random, bent, player);
        let mut next = player.copy();
        match next.play(&call) {
            Outcome::Inside(_) => return Some((call, Some(next))),
            _ if random.below(1_000) < bent.outside => return Some((call, None)),
            _ => {}
        }
    }
    None
}

/// A call that fits the state: mostly on a record that is there.
fn draw(random: &mut Random, bent: &Bent, player: &Player) -> Call {
    let records = player.records();
    let last = player.table.last_channel_id.0;
    if records.is_empty() || ((records.len() as u32) < bent.channels && random.percent(45)) {
        return opening(random, last);
    }
    let record = records[random.below(records.len() as u32) as usize];
    let number = match random.below(25) {
        0 => random.near(&[last, record.sender_channel.0, 0]),
        _ => record.sender_channel.0,
    };
    if !record.confirmed && random.percent(60) {
        return Call::Incoming { payload: reply(random, number) };
    }
    let (writer, rekey) = (random.percent(bent.writer), random.percent(bent.rekey));
    let roll = match random.below(100) {
        45..=61 if random.percent(bent.hoard) => 0,
        roll => roll,
    };
    match roll {
        0..=27 => {
            let length = data_length(random, bent, player, record);
            let code = random.percent(40).then(|| random.pick(&[0, 1, 1, 2, 0xffff_ffff]));
            Call::Data { writer, rekey, number, code, bytes: random.bytes(length) }
        }
        28..=32 => Call::Eof { number },
        33..=35 => Call::Close { number },
        36..=44 => adjust(random, record, number),
        45..=56 => Call::FlushPending { writer, rekey, number },
        57..=61 => Call::FlushAllPending { writer, rekey },
        62..=69 => Call::Flush { rekey },
        70..=76 => Call::Drain,
        77..=90 => Call::Incoming { payload: message(random, record, number) },
        91..=93 => Call::SenderWindowSize { number },
        94..=96 => Call::HasPendingData { number },
        97 => Call::NewChannelId,
        98 => damage(random, player),
        _ => opening(random, last),
    }
}

/// An opening; for the peer often just where the next number would be picked.
fn opening(random: &mut Random, last: u32) -> Call {
    let (window, limit) = (random.size(), random.size());
    if random.percent(40) {
        return Call::NewChannel { window, limit };
    }
    let number = match random.below(3) {
        0 => last.wrapping_add(random.between(1, 3)),
        1 => random.pick(&EDGES),
        _ => random.next() as u32,
    };
    let (peer, peer_window) = (random.near(&[0, 7, number]), random.size());
    Call::OpenForPeer { number, peer, window, limit, peer_window, peer_limit: random.size() }
}

/// A length of data about the window, the limit, sums of them, or what fills a buffer in one packet.
fn data_length(random: &mut Random, bent: &Bent, player: &Player, record: &ChannelParams) -> u32 {
    let (window, limit) = (record.recipient_window_size, record.recipient_maximum_packet_size);
    let counts = player.counts();
    let free = |buffer: usize| (player.room[buffer] - counts[buffer]) as u32;
    let length = if random.percent(15) {
        let header = random.pick(&[13, 17]);
        random.near(&[free(0), free(0).wrapping_add(window), free(1).wrapping_sub(header), free(2).wrapping_sub(header)])
    } else {
        random.near(&[0, limit, limit.wrapping_mul(2), limit.wrapping_mul(3), window, window.wrapping_add(limit)])
    };
    if length <= bent.longest && random.percent(70) { length } else { random.below(bent.longest + 1) }
}

/// A charge about the window and about half the target.
fn adjust(random: &mut Random, record: &ChannelParams, number: u32) -> Call {
    let window = record.sender_window_size;
    let target = match random.below(4) {
        0 => random.near(&[window.wrapping_mul(2), window]),
        1 => random.size(),
        _ => record.sender_maximum_packet_size.wrapping_mul(2),
    };
    let n = match random.below(3) {
        0 => random.size(),
        _ => random.near(&[0, window, window.wrapping_sub(target / 2)]),
    };
    Call::AdjustWindowSize { number, n, target }
}

fn payload(kind: u8, integers: &[u32]) -> Vec<u8> {
    let mut out = vec![kind];
    out.extend(integers.iter().flat_map(|value| value.to_be_bytes()));
    out
}

fn string(random: &mut Random, out: &mut Vec<u8>) {
    let length = random.below(12);
    out.extend(length.to_be_bytes());
    out.extend(random.bytes(length));
}

/// The peer's 91, at times with a tail, or its 92.
fn reply(random: &mut Random, number: u32) -> Vec<u8> {
    if random.percent(80) {
        let mut out = payload(91, &[number, random.near(&[7, number]), random.size(), random.size()]);
        let tail = random.pick(&[0, 0, 0, 1, 9]);
        out.extend(random.bytes(tail));
        return out;
    }
    let mut out = payload(92, &[number, random.between(1, 4)]);
    string(random, &mut out);
    string(random, &mut out);
    out
}

/// A message for an open channel: mostly credit, at times up to the highest window.
fn message(random: &mut Random, record: &ChannelParams, number: u32) -> Vec<u8> {
    let mut out = match random.below(20) {
        0 => return reply(random, number),
        1 => payload(97, &[number]),
        2 | 3 => payload(96, &[number]),
        4 | 5 => payload(94, &[number]),
        6 | 7 => payload(95, &[number, random.between(0, 2)]),
        _ => {
            let left = u32::MAX - record.recipient_window_size;
            let add = if random.percent(90) { random.size().min(left) } else { random.near(&[left]) };
            payload(93, &[number, add])
        }
    };
    if out[0] == 94 || out[0] == 95 {
        string(random, &mut out);
    }
    if random.percent(2) {
        out.push(0);
    }
    out
}

/// Damage that does none: a byte past the used part, or the counts that stand; now and then another.
fn damage(random: &mut Random, player: &Player) -> Call {
    let counts = player.counts().map(|count| count as u32);
    if random.percent(30) {
        let entries = counts[3] + random.percent(10) as u32;
        return Call::SetCounts { queue: counts[0], staged: counts[1], sent: counts[2], entries };
    }
    let which = random.below(3) as u8;
    Call::SetByte { which, offset: counts[which as usize] + random.below(40), value: random.next() as u8 }
}
