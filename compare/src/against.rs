//! Runs `replay` on a script and holds what it writes to what the draft does.

use std::fmt::Write as _;
use std::io::{Read, Write};
use std::process::{Command, Stdio};

use crate::player::{Outcome, Player, answer_line, lines};
use crate::script::{Call, Script};

/// How far scripts were compared, and on what.
#[derive(Default)]
pub struct Tally {
    pub scripts: usize,
    /// The calls compared, by their number in the format.
    pub calls: [usize; 17],
    /// The calls compared that were answered 2 or 4.
    pub unknown: usize,
    pub limit: usize,
    /// The first call outside the domain and all behind it.
    pub outside: usize,
    /// Scripts that had 32 channels at once, and those that had 64 entries.
    pub full: usize,
    pub entries: usize,
}

impl Tally {
    pub fn compared(&self) -> usize {
        self.calls.iter().sum()
    }

    /// Counts one call that was equal on both sides.
    fn count(&mut self, call: &Call, answer: u64) {
        self.calls[call.kind() as usize] += 1;
        self.unknown += (answer == 2) as usize;
        self.limit += (answer == 4) as usize;
    }

    pub fn add(&mut self, other: Tally) {
        self.scripts += other.scripts;
        for (total, calls) in self.calls.iter_mut().zip(other.calls) {
            *total += calls;
        }
        self.unknown += other.unknown;
        self.limit += other.limit;
        self.outside += other.outside;
        self.full += other.full;
        self.entries += other.entries;
    }

    /// Two lines for the reader.
    pub fn summary(&self, differences: usize) -> String {
        let calls: Vec<String> = (1..17).map(|kind| format!("{kind}: {}", self.calls[kind])).collect();
        format!(
            "calls compared by number: {}; answered 2: {}, 4: {}; scripts with 32 channels: {}, with 64 entries: {}\n\
             scripts {}, calls compared {}, calls skipped as outside {}, differences {differences}",
            calls.join(", "),
            self.unknown,
            self.limit,
            self.full,
            self.entries,
            self.scripts,
            self.compared(),
            self.outside
        )
    }
}

/// The first call at which the two sides differ, with the lines of each.
pub struct Difference {
    pub call: usize,
    pub draft: String,
    pub replay: String,
}

/// What `replay` writes for a script.
pub fn run(replay: &[&str], script: &[u8]) -> String {
    let mut child = Command::new(replay[0])
        .args(&replay[1..])
        .stdin(Stdio::piped())
        .stdout(Stdio::piped())
        .spawn()
        .unwrap_or_else(|error| panic!("{}: {error}", replay[0]));
    let (mut stdin, mut stdout) = (child.stdin.take().unwrap(), child.stdout.take().unwrap());
    let mut bytes = Vec::new();
    std::thread::scope(|scope| {
        // A program that ends early leaves the rest unread: what it wrote tells.
        scope.spawn(move || drop(stdin.write_all(script)));
        stdout.read_to_end(&mut bytes).unwrap();
    });
    child.wait().unwrap();
    String::from_utf8_lossy(&bytes).into_owned()
}

/// The lines of one call out of the rest of `replay`'s text: its answer and all up to the next answer.
fn take_call<'a>(rest: &mut &'a str) -> &'a str {
    let end = rest.find("\n= ").map_or(rest.len(), |at| at + 1);
    let (call, tail) = rest.split_at(end);
    *rest = tail;
    call
}

/// A buffer's bytes in hexadecimal, cut into frames, a line each. What is no whole frame is shown as it is.
fn frames(out: &mut String, letter: char, mut hex: &str) {
    while !hex.is_empty() {
        let length = hex.get(..8).and_then(|digits| usize::from_str_radix(digits, 16).ok());
        let Some(payload) = length.and_then(|length| hex.get(8..8 + 2 * length)) else {
            writeln!(out, "{letter} broken {hex}").unwrap();
            return;
        };
        out.push(letter);
        if !payload.is_empty() {
            out.push(' ');
        }
        writeln!(out, "{payload}").unwrap();
        hex = &hex[8 + payload.len()..];
    }
}

/// The lines of `replay` for one call, brought into the form that both sides have: records and entries in ascending
/// number, an entry with its bytes, and the frames one by one. Places, sums and the used word are not in the draft.
pub fn normal(call: &str) -> String {
    let mut out = String::new();
    let mut records: Vec<(u64, &str)> = Vec::new();
    let mut entries: Vec<(u64, &str)> = Vec::new();
    let (mut queue, mut staged, mut sent) = ("", "", "");
    for line in call.lines() {
        let word = |n: usize| line.split(' ').nth(n).unwrap_or("");
        match line.split_at_checked(2) {
            Some(("= ", _)) => writeln!(out, "{line}").unwrap(),
            Some(("t ", _)) => writeln!(out, "t {}", word(1)).unwrap(),
            Some(("p ", rest)) => {
                let fields = rest.split_once(' ').map_or("", |(_, fields)| fields);
                records.push((word(3).parse().unwrap_or(u64::MAX), fields));
            }
            Some(("e ", rest)) => entries.push((word(1).parse().unwrap_or(u64::MAX), rest)),
            Some(("q ", _)) => queue = word(3),
            Some(("s ", _)) => staged = word(3),
            Some(("o ", _)) => sent = word(3),
            _ => writeln!(out, "{line}").unwrap(),
        }
    }
    records.sort();
    for (_, fields) in records {
        writeln!(out, "c {fields}").unwrap();
    }
    let mut lines = Vec::new();
    for (number, entry) in entries {
        let left = entry.rsplit(' ').next().and_then(|left| left.parse::<usize>().ok()).unwrap_or(0);
        let (bytes, rest) = queue.split_at_checked(2 * left).unwrap_or(("broken", ""));
        queue = rest;
        let space = if bytes.is_empty() { "" } else { " " };
        lines.push((number, format!("e {entry}{space}{bytes}\n")));
    }
    lines.sort_by_key(|(number, _)| *number);
    out.extend(lines.into_iter().map(|(_, line)| line));
    if !queue.is_empty() {
        writeln!(out, "q {queue}").unwrap();
    }
    frames(&mut out, 's', staged);
    frames(&mut out, 'o', sent);
    out
}

/// Plays a script on both sides up to the first call outside the domain, of which the refusal's number is compared.
pub fn compare(replay: &[&str], script: &Script) -> Result<Tally, Difference> {
    let text = run(replay, &script.write());
    let mut rest = text.as_str();
    let mut player = Player::new(script.room);
    let mut tally = Tally { scripts: 1, ..Tally::default() };
    for (index, call) in script.calls.iter().enumerate() {
        let theirs = take_call(&mut rest);
        let outcome = player.play(call);
        let (draft, replay) = match &outcome {
            Outcome::Inside(values) => (lines(values, &player), normal(theirs)),
            Outcome::Refused(values) => (answer_line(values), theirs.lines().next().unwrap_or("").to_string() + "\n"),
            Outcome::Ended => (String::new(), String::new()),
        };
        if draft != replay {
            return Err(Difference { call: index, draft, replay });
        }
        let Outcome::Inside(values) = outcome else {
            tally.outside = script.calls.len() - index;
            return Ok(tally);
        };
        tally.count(call, values[0]);
        tally.full |= (player.table.channels.len() == 32) as usize;
        tally.entries |= (player.counts()[3] == 64) as usize;
    }
    if !rest.is_empty() {
        return Err(Difference { call: script.calls.len(), draft: String::new(), replay: rest.to_string() });
    }
    Ok(tally)
}

/// A script that still differs and from which no call can be dropped. What stands behind the difference goes first.
pub fn shrink(replay: &[&str], mut script: Script, difference: &Difference) -> Script {
    script.calls.truncate(difference.call + 1);
    let mut run = script.calls.len() / 2;
    while run > 0 {
        let mut at = 0;
        let mut dropped = false;
        while at < script.calls.len() {
            let mut fewer = script.clone();
            fewer.calls.drain(at..(at + run).min(script.calls.len()));
            if compare(replay, &fewer).is_err() {
                script = fewer;
                dropped = true;
            } else {
                at += run;
            }
        }
        if !(dropped && run == 1) {
            run /= 2;
        }
    }
    script
}
