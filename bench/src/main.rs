//! What a call costs: our table through its Rust crate, and the draft's text over the comparison's stand-ins, in one process and in turn.
//! `bench` writes the table of docs/PERFORMANCE.md; `bench WORDS` only the rows that have all the words; `bench only WORDS` runs our side
//! of those rows for some seconds, for a profiler.

mod cases;
mod draft;
mod ours;
#[allow(dead_code)]
#[path = "../../compare/src/session.rs"]
mod session;
#[allow(dead_code)]
#[path = "../../compare/src/standins.rs"]
mod standins;
mod timing;

use cases::{CHANNELS, Case};
// The draft's text names these at the crate's root.
use standins::{Error, compression};

/// Rounds of each side, in turn; the best of each is kept.
const ROUNDS: usize = 12;

/// The best round of our side and of the draft's, less the clock's time.
fn best(case: &Case, timer: f64) -> (f64, f64) {
    let (mut ours, mut draft) = (ours::State::new(case), draft::State::new(case));
    let before = ours.clone();
    let (mut best, mut best_draft) = (f64::MAX, f64::MAX);
    for _ in 0..ROUNDS {
        best = best.min(timing::batch(case.calls(), &mut ours, |state| *state = before.clone(), |state| state.call(case)));
        best_draft = best_draft.min(timing::batch(case.calls(), &mut draft, |state| state.reset(case), |state| state.call(case)));
    }
    (best - timer, best_draft - timer)
}

fn main() {
    let words: Vec<String> = std::env::args().skip(1).collect();
    let only = words.first().is_some_and(|word| word == "only");
    let words = &words[only as usize..];
    let chosen = cases::rows().into_iter().filter(|case| words.iter().all(|word| case.to_string().contains(word.as_str())));
    if only {
        for case in chosen {
            let before = ours::State::new(&case);
            let round = |_| timing::batch(case.calls(), &mut before.clone(), |state| *state = before.clone(), |state| state.call(&case));
            eprintln!("{case} | {:.0} with the clock", (0..200).map(round).fold(f64::MAX, f64::min));
        }
        return;
    }
    let timer = (0..ROUNDS).map(|_| timing::batch(20_000, &mut (), |_| (), |_| ())).fold(f64::MAX, f64::min);
    println!("A copy of the table's 1,960 bytes: {:.0} ns. Taken off every time, for the clock: {timer:.0} ns.\n", timing::copy());
    println!("| call | staged frames | ours, 1 channel | 8 | 32 | the draft, 1 channel | 8 | 32 | ratio, 1 channel | 8 | 32 |");
    println!("|---|---|---|---|---|---|---|---|---|---|---|");
    for row in chosen {
        let times = CHANNELS.map(|channels| best(&Case { channels, ..row }, timer));
        let cells = |of: fn((f64, f64)) -> String| times.map(of).join(" | ");
        let ours = cells(|(ours, _)| format!("{ours:.0}"));
        let draft = cells(|(_, draft)| format!("{draft:.0}"));
        let ratio = cells(|(ours, draft)| format!("{:.2}", ours / draft));
        println!("{row} | {ours} | {draft} | {ratio} |");
    }
}
