//! The draft's channel table and ours, held to each other on scripts of calls. The README says how.

mod against;
mod generate;
mod incoming;
mod player;
mod script;
#[allow(dead_code)]
mod session;
#[allow(dead_code)]
mod standins;
#[cfg(test)]
mod tests;

use std::collections::BTreeSet;
use std::io::{Read, Write};
use std::process::ExitCode;
use std::{env, fs};

use against::Tally;
use generate::Random;
use player::{Outcome, Player, lines};
use script::{Call, Script};
use standins::{Error, compression};

const USAGE: &str = "usage: compare run SCRIPTS CALLS SEED FAILING REPLAY..
       compare one SCRIPT REPLAY..   compares one script
       compare show < SCRIPT         a script's calls and what the draft does
       compare make SEED COUNT       writes sample scripts
       compare sample < SCRIPTS      what the draft does with them
REPLAY.. are the words of the command that plays a script.";

fn main() -> ExitCode {
    let arguments: Vec<String> = env::args().skip(1).collect();
    match arguments.iter().map(String::as_str).collect::<Vec<_>>()[..] {
        ["run", scripts, calls, seed, failing, ref replay @ ..] if !replay.is_empty() => {
            run(replay, number(scripts) as usize, number(calls) as usize, number(seed), failing)
        }
        ["one", path, ref replay @ ..] if !replay.is_empty() => one(replay, &fs::read(path).expect("the script")),
        ["show"] => show(&input()),
        ["make", seed, count] => make(number(seed), number(count) as usize),
        ["sample"] => sample(&input()),
        _ => {
            eprintln!("{USAGE}");
            ExitCode::from(2)
        }
    }
}

fn number(word: &str) -> u64 {
    word.parse().unwrap_or_else(|_| panic!("`{word}` is no number"))
}

fn input() -> Vec<u8> {
    let mut bytes = Vec::new();
    std::io::stdin().read_to_end(&mut bytes).expect("standard input");
    bytes
}

/// Compares random scripts until there are as many scripts and calls as asked for, or the two sides differ.
fn run(replay: &[&str], scripts: usize, calls: usize, seed: u64, failing: &str) -> ExitCode {
    let mut random = Random(seed);
    let mut total = Tally::default();
    while total.scripts < scripts || total.compared() < calls {
        let script = generate::script(&mut random, false);
        match against::compare(replay, &script) {
            Ok(tally) => total.add(tally),
            Err(difference) => {
                let script = against::shrink(replay, script, &difference);
                fs::write(failing, script.write()).expect("the failing script's file");
                println!("differs, the smallest script found is in {failing}");
                one(replay, &script.write());
                println!("{}", total.summary(1));
                return ExitCode::FAILURE;
            }
        }
        if total.scripts % 1000 == 0 {
            eprintln!("scripts {}, calls compared {}", total.scripts, total.compared());
        }
    }
    println!("{}", total.summary(0));
    ExitCode::SUCCESS
}

/// Compares one script and shows where it differs.
fn one(replay: &[&str], bytes: &[u8]) -> ExitCode {
    let script = Script::read(bytes).expect("a script");
    match against::compare(replay, &script) {
        Ok(tally) => {
            println!("{}", tally.summary(0));
            ExitCode::SUCCESS
        }
        Err(difference) => {
            println!("queue, staged, sent: {:?}", script.room);
            for (index, call) in script.calls.iter().enumerate() {
                println!("{index}: {call:?}");
            }
            println!("at call {} the draft\n{}and replay\n{}", difference.call, difference.draft, difference.replay);
            ExitCode::FAILURE
        }
    }
}

/// A script's calls, each with the lines of the draft, up to the first call outside the domain.
fn show(bytes: &[u8]) -> ExitCode {
    let script = Script::read(bytes).expect("a script");
    let mut player = Player::new(script.room);
    for call in &script.calls {
        println!("{call:?}");
        match player.play(call) {
            Outcome::Inside(values) => print!("{}", lines(&values, &player)),
            outside => {
                println!("{outside:?}");
                break;
            }
        }
    }
    ExitCode::SUCCESS
}

/// What a call and its answer show of the format, so that a sample can be seen to leave nothing out.
fn aspect(call: &Call, values: &[u64]) -> String {
    let form = match call {
        Call::Data { writer, rekey, code, .. } => format!("{writer} {rekey} {}", code.is_some()),
        Call::FlushPending { writer, rekey, .. } | Call::FlushAllPending { writer, rekey } => format!("{writer} {rekey}"),
        Call::Flush { rekey } => format!("{rekey}"),
        Call::Incoming { payload } => format!("{}", payload[0]),
        _ => String::new(),
    };
    let answer = match (call, values) {
        (Call::FlushPending { .. }, [0, 1, _, eof, close]) => format!("0 complete {eof} {close}"),
        (Call::FlushPending { .. }, [0, 0, _]) => "0 incomplete".to_string(),
        (Call::AdjustWindowSize { .. }, [0, adjusted]) => format!("0 {adjusted}"),
        (Call::HasPendingData { .. }, [0, pending]) => format!("0 {pending}"),
        _ => values[0].to_string(),
    };
    format!("{} {form} {answer}", call.kind())
}

/// Writes small scripts, each behind its length, and on the error output what calls, forms and answers they have.
/// Of the first five thousand drawn those are taken that show something new, then any, up to the count.
fn make(seed: u64, count: usize) -> ExitCode {
    let mut random = Random(seed);
    let (mut out, mut seen) = (Vec::new(), BTreeSet::new());
    let (mut drawn, mut taken) = (0, 0);
    while taken < count {
        let script = generate::script(&mut random, true);
        let mut player = Player::new(script.room);
        let mut news = false;
        for call in &script.calls {
            let Outcome::Inside(values) = player.play(call) else { panic!("outside the domain") };
            news |= seen.insert(aspect(call, &values));
        }
        drawn += 1;
        if news || drawn > 5_000 {
            let bytes = script.write();
            out.extend((bytes.len() as u32).to_be_bytes());
            out.extend(bytes);
            taken += 1;
        }
    }
    std::io::stdout().write_all(&out).expect("standard output");
    for aspect in &seen {
        eprintln!("{aspect}");
    }
    ExitCode::SUCCESS
}

/// The draft's lines for scripts that stand each behind its length.
fn sample(bytes: &[u8]) -> ExitCode {
    let mut reader = script::Reader { bytes, at: 0 };
    let mut text = String::new();
    let mut index = 0;
    while let Some((start, length)) = reader.string() {
        text += &format!("script {index}\n");
        let script = Script::read(&bytes[start..start + length]).expect("a script");
        let mut player = Player::new(script.room);
        for call in &script.calls {
            let Outcome::Inside(values) = player.play(call) else { panic!("outside the domain") };
            text += &lines(&values, &player);
        }
        index += 1;
    }
    print!("{text}");
    ExitCode::SUCCESS
}
