//! The makers and the update lock (02, No. 1): all that can come of a `u` comes up.

use super::{made, printed, shown};
use crate::commands::read_step;
use crate::desk::{Answer, Desk, Holder, Outcome, Status};
use crate::judge::{judge, Verdict};
use crate::lines::{read_history, read_request};
use crate::words::*;
use std::collections::BTreeMap;

/// What one step shows of the update lock: of the request, and of the wakes.
fn updates(before: &Desk, asked: Line, outcome: &Outcome) -> Vec<String> {
    let mut found = Vec::new();
    if has_cell(asked.letter) && before.status(asked.job) == Some(Status::Running) && asked.cell < 64 {
        found.extend(asked_of(before, asked, outcome.answer));
    }
    for wake in &outcome.wakes {
        found.push(format!("wake {}", way_of(before, *wake)));
    }
    found
}

/// `new u`, `U stays by r`, `S to U by u`.
fn way_of(desk: &Desk, asked: Line) -> String {
    let held = desk.cells[asked.cell as usize].held_by(asked.job);
    let (letter, after) = (char::from(asked.letter), held_after(held, asked.letter));
    match held {
        None => format!("new {letter}"),
        Some(held) if held == after => format!("{held:?} stays by {letter}"),
        Some(held) => format!("{held:?} to {after:?} by {letter}"),
    }
}

fn asked_of(before: &Desk, asked: Line, answer: Answer) -> Vec<String> {
    let word = match answer {
        Answer::Go(_) => "go",
        Answer::Wait(_) => "wait",
        Answer::Back(_) => "back",
        Answer::No(_) => "no",
    };
    let cell = &before.cells[asked.cell as usize];
    let way = format!("{}, {word}", way_of(before, asked));
    let mut found = vec![way.clone()];
    for mode in [Mode::S, Mode::U, Mode::I, Mode::X] {
        if cell.holders.iter().any(|holder| holder.job != asked.job && holder.mode == mode) {
            found.push(format!("{way} at {mode:?}"));
        }
    }
    if !cell.queue.is_empty() {
        found.push(format!("{way} at a queue"));
    }
    let mode = held_after(cell.held_by(asked.job), asked.letter);
    let lets = |holder: &Holder| holder.job == asked.job || granted_beside(holder.mode, mode);
    if cell.holders.iter().all(|holder| lets(holder) || asked.job < holder.job) {
        found.push(format!("{way} for one that would let it"));
    }
    found
}

#[rustfmt::skip]
const WANTED: &[&str] = &[
    "new u, go", "new u, go at S", "new u, wait", "new u, back", "new u, wait at S", "new u, wait at U",
    "new r, wait at U", "new r, back at U", "new w, wait at U", "new w, back at U", "new i, wait at U",
    "new i, back at U", "new u, back at U", "new u, wait at I", "new u, back at I", "new u, wait at X",
    "new u, back at X", "new u, back at a queue",
    "U stays by u, go", "X stays by u, go", "U stays by r, go", "U stays by r, go at S",
    "U stays by u, go at S",
    "S to U by u, go", "S to U by u, go at S", "S to U by u, go at a queue", "S to U by u, wait at U",
    "S to U by u, back at U", "S to U by u, back for one that would let it",
    "S to X by w, wait at U", "S to X by i, wait at U", "S to X by w, back at U", "S to X by i, back at U",
    "I to X by u, go", "I to X by u, wait", "I to X by u, back",
    "U to X by w, go", "U to X by w, wait", "U to X by w, back",
    "U to X by i, go", "U to X by i, wait", "U to X by i, back",
    "wake new u", "wake S to U by u", "wake I to X by u", "wake U to X by w", "wake U to X by i",
];

/// How often each was found, in a text of lines or of steps.
fn counts_of(input: &[u8], read: impl Fn(&[u8]) -> Option<Line>) -> BTreeMap<String, usize> {
    let mut counts = BTreeMap::new();
    let mut desk = Desk::start(1).unwrap();
    for asked in input.split_inclusive(|&byte| byte == b'\n').filter_map(read) {
        let before = desk.clone();
        let outcome = desk.step(asked);
        for found in updates(&before, asked, &outcome) {
            *counts.entry(found).or_insert(0) += 1;
        }
    }
    counts
}

#[test]
fn every_way_of_u_comes_up() {
    for seed in (1..=8u64).map(|seed| seed.to_string()) {
        let requests = counts_of(&made(&["make", "requests", &seed, "5000"]), |line| read_request(line).ok());
        let steps = counts_of(&made(&["make", "steps", &seed, "5000"]), read_step);
        for (what, counts) in [("requests", requests), ("steps", steps)] {
            let missing: Vec<&&str> = WANTED.iter().filter(|&&way| !counts.contains_key(way)).collect();
            assert!(missing.is_empty(), "{what} of seed {seed} lack {missing:?}");
        }
    }
}

#[test]
fn u_is_made_for_both_readers() {
    let good = made(&["make", "lines", "2", "2000"]);
    let lines = || good.split_inclusive(|&byte| byte == b'\n').filter(|line| line.starts_with(b"u"));
    let taken = lines().filter(|line| read_request(line).is_ok()).count();
    assert!(taken > 60 && lines().count() - taken > 60, "{taken} of {}", lines().count());
    assert!(lines().all(|line| read_history(line).is_err()));
    let first_bad = |input: &[u8], at: usize| {
        let line = input.split_inclusive(|&byte| byte == b'\n').nth(at - 1).unwrap();
        read_request(line).is_ok_and(|read| read.letter == UPDATE)
    };
    let mut refused = 0;
    for seed in (0..400u64).map(|seed| seed.to_string()) {
        let input = made(&["make", "histories", &seed, "300"]);
        if let Verdict::No { line, refusal: BAD_LINE, .. } = judge(&input, &mut [0; HISTORY_JOBS]) {
            refused += usize::from(first_bad(&input, line));
        }
    }
    assert!(refused > 10, "{refused} of 400 histories refused for a u");
    let cases =
        (0..20u64).map(|seed| printed(&["cases"], &made(&["make", "cases", &seed.to_string(), "64"])).0);
    let told = shown(&cases.collect::<Vec<_>>().concat()).matches("line\tu\t").count();
    assert!(told > 10, "{told} cases refused for a u");
}
