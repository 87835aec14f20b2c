//! The makers: the same bytes for ever, and every feature that is wanted.

use super::{made, shown};
use crate::commands::{read_step, verdict_line};
use crate::desk::{Answer, Desk, Outcome, Status};
use crate::lines::{read_history, read_request};
use crate::words::*;
use std::collections::{BTreeMap, BTreeSet};

/// Fowler, Noll and Vo's hash.
pub fn hash(bytes: &[u8]) -> u64 {
    bytes.iter().fold(0xcbf2_9ce4_8422_2325, |hash, &byte| {
        (hash ^ u64::from(byte)).wrapping_mul(0x0100_0000_01b3)
    })
}

#[test]
fn same_seed_same_bytes_for_ever() {
    let mut found = Vec::new();
    for what in ["requests", "histories", "lines", "steps"] {
        let all: Vec<Vec<u8>> =
            (0..24u64).map(|seed| made(&["make", what, &seed.to_string(), "700"])).collect();
        found.push(hash(&all.concat()));
    }
    let cases: Vec<Vec<u8>> =
        (0..24u64).map(|seed| made(&["make", "cases", &seed.to_string(), "48"])).collect();
    found.push(hash(&cases.concat()));
    assert_eq!(found, PINNED, "the makers' bytes have changed");
}

/// Pinned bytes: the hashes of what the makers make.
const PINNED: [u64; 5] = [
    4137022298882639447,
    14707928746236119641,
    5437034308916447034,
    7175436058442937876,
    12867026373717327071,
];

/// What one step shows of the features wanted.
fn features(before: &Desk, asked: Line, outcome: &Outcome, after: &Desk) -> Vec<String> {
    let mut found = Vec::new();
    let was = before.status(asked.job);
    match outcome.answer {
        Answer::No(number) => found.push(format!("no {number}")),
        Answer::Go(_) if asked.letter == RETRY => found.push("retry".to_string()),
        Answer::Go(_) if asked.letter == COMMIT => found.push("commit".to_string()),
        Answer::Go(_) if asked.letter == GIVE_UP => found.push(format!("give up {:?}", was.unwrap())),
        Answer::Wait(_) => found.push("wait".to_string()),
        Answer::Back(_) => found.push("back".to_string()),
        Answer::Go(_) => {}
    }
    if has_cell(asked.letter) && was == Some(Status::Running) && asked.cell < 64 {
        let (old, new) = (&before.cells[asked.cell as usize], &after.cells[asked.cell as usize]);
        let held = old.held_by(asked.job);
        if held.is_some() && held != new.held_by(asked.job) && outcome.answer == Answer::Go(asked.job) {
            found.push("promotion at once".to_string());
            if !old.queue.is_empty() {
                found.push("promotion past a queue".to_string());
            }
        }
        if held.is_some() && outcome.answer == Answer::Wait(asked.job) {
            found.push("promotion waits".to_string());
        }
        if held.is_some() && outcome.answer == Answer::Back(asked.job) {
            found.push("promotion sent back".to_string());
        }
    }
    let wakes = &outcome.wakes;
    if let Some(first) = wakes.first() {
        found.push(format!(
            "wake by {}",
            if asked.letter == COMMIT {
                "commit"
            } else if asked.letter == GIVE_UP {
                "give-up"
            } else {
                "back"
            }
        ));
        if was == Some(Status::Waiting) {
            found.push("wake by give-up of a waiter".to_string());
        }
        if wakes.len() > 1 {
            found.push("several wakes".to_string());
        }
        if wakes.iter().any(|wake| wake.cell != first.cell) {
            found.push("wakes over several cells".to_string());
        }
        if wakes.iter().any(|wake| before.cells[wake.cell as usize].held_by(wake.job).is_some()) {
            found.push("promotion woken".to_string());
        }
    }
    if after.jobs.len() == PLACES {
        found.push("32 open".to_string());
    }
    found
}

#[rustfmt::skip]
const WANTED: &[&str] = &[
    "wait", "back", "retry", "commit", "give up Running", "give up Waiting", "give up SentBack",
    "promotion at once", "promotion past a queue", "promotion waits", "promotion sent back",
    "promotion woken", "wake by commit", "wake by give-up", "wake by back",
    "wake by give-up of a waiter", "several wakes", "wakes over several cells", "32 open",
    "no 2", "no 3", "no 4", "no 5", "no 6", "no 8",
];

/// In how many of the seeds each feature was found.
fn count_features(seeds: u64, found_in: impl Fn(u64) -> BTreeSet<String>) -> BTreeMap<String, u64> {
    let mut counts = BTreeMap::new();
    for seed in 0..seeds {
        for feature in found_in(seed) {
            *counts.entry(feature).or_insert(0) += 1;
        }
    }
    counts
}

fn most_seeds(counts: &BTreeMap<String, u64>, seeds: u64, wanted: &[&str]) {
    for &feature in wanted {
        let count = counts.get(feature).copied().unwrap_or(0);
        assert!(2 * count > seeds, "{feature} found in {count} of {seeds} seeds: {counts:?}");
    }
}

#[test]
fn requests_reach_every_feature() {
    let counts = count_features(40, |seed| {
        let input = made(&["make", "requests", &seed.to_string(), "600"]);
        assert_eq!(input.split_inclusive(|&byte| byte == b'\n').count(), 600);
        let mut found = BTreeSet::new();
        let mut desk = Desk::start(1).unwrap();
        for line in input.split_inclusive(|&byte| byte == b'\n') {
            if let Ok(asked) = read_request(line) {
                let before = desk.clone();
                let outcome = desk.step(asked);
                found.extend(features(&before, asked, &outcome, &desk));
            } else {
                found.insert("no 9".to_string());
            }
        }
        if !input.ends_with(b"\n") {
            found.insert("torn".to_string());
        }
        found
    });
    most_seeds(&counts, 40, WANTED);
    most_seeds(&counts, 40, &["no 9"]);
    assert!(counts["no 9"] < 40, "no seed without rubbish");
    assert!(counts["torn"] > 3 && counts["torn"] < 20, "{counts:?}");
    assert!(!counts.contains_key("no 1") && !counts.contains_key("no 7"));
}

#[test]
fn steps_reach_every_feature() {
    for (first, wanted) in
        [(1, WANTED), (LAST_NUMBER - 40, &["no 1", "no 2", "no 3", "no 7", "wait", "back"])]
    {
        let counts = count_features(40, |seed| {
            let input = made(&["make", "steps", &seed.to_string(), "600", &first.to_string()]);
            let mut found = BTreeSet::new();
            let mut desk = Desk::start(first).unwrap();
            for line in input.split_inclusive(|&byte| byte == b'\n') {
                let asked = read_step(line).expect("a step");
                let before = desk.clone();
                let outcome = desk.step(asked);
                found.extend(features(&before, asked, &outcome, &desk));
                if asked.cell > 99 && outcome.answer == Answer::No(2) {
                    found.insert("no 2 above 99".to_string());
                }
                if asked.letter == COMMIT && asked.cell > 63 && outcome.answer == Answer::Go(asked.job) {
                    found.insert("unused cell above 63".to_string());
                }
            }
            found
        });
        most_seeds(&counts, 40, wanted);
        most_seeds(&counts, 40, &["no 1", "no 2 above 99", "unused cell above 63"]);
    }
}

#[test]
fn histories_reach_every_feature() {
    let mut counts: BTreeMap<String, usize> = BTreeMap::new();
    for seed in 0..400 {
        let input = made(&["make", "histories", &seed.to_string(), "900"]);
        assert_eq!(input.split_inclusive(|&byte| byte == b'\n').count(), 900);
        let line = shown(&verdict_line(&input));
        let words: Vec<&str> = line.trim_end().split('\t').collect();
        let jobs = words.len() - 1;
        let mut found =
            vec![if words[0] == "no" { format!("no {}", words[2]) } else { words[0].to_string() }];
        if words[0] == "knot" {
            found.push(
                ["knot of 2", "knot of 3 to 63", "knot of 64 to 254", "knot of 255"]
                    [usize::from(jobs > 2) + usize::from(jobs > 63) + usize::from(jobs > 254)]
                .to_string(),
            );
        }
        let events: Vec<Line> =
            input.split_inclusive(|&byte| byte == b'\n').flat_map(read_history).collect();
        let has =
            |letter: u8, job: u32| events.iter().any(|event| event.letter == letter && event.job == job);
        let acts = |job: u32| events.iter().any(|event| has_cell(event.letter) && event.job == job);
        let jobs: BTreeSet<u32> = events.iter().map(|event| event.job).collect();
        for &job in &jobs {
            let back = events.iter().position(|event| event.letter == SENT_BACK && event.job == job);
            if back.is_some_and(|back| {
                events[back..].iter().any(|event| has_cell(event.letter) && event.job == job)
            }) {
                found.push("lines after k".to_string());
            }
            if !has(COMMIT, job) && !has(GIVE_UP, job) {
                found.push("no end".to_string());
            }
            if has(COMMIT, job) && !acts(job) {
                found.push("commit without actions".to_string());
            }
        }
        found.push(format!("job 255 {}", jobs.contains(&255)));
        found.push(format!("job 256 {}", jobs.contains(&256)));
        found.push(format!("increments {}", events.iter().any(|event| event.letter == INCREMENT)));
        found.sort();
        found.dedup();
        for feature in found {
            *counts.entry(feature).or_insert(0) += 1;
        }
    }
    for wanted in [
        "orderly",
        "knot",
        "dirty",
        "no 2",
        "no 9",
        "no 12",
        "no 13",
        "no 16",
        "knot of 2",
        "knot of 3 to 63",
        "knot of 64 to 254",
        "knot of 255",
        "lines after k",
        "no end",
        "commit without actions",
        "job 255 true",
        "job 256 true",
        "increments true",
    ] {
        let count = counts.get(wanted).copied().unwrap_or(0);
        assert!(count >= 5, "{wanted} in {count} of 400 histories: {counts:?}");
    }
    assert!(counts["orderly"] > 70 && counts["knot"] > 70 && counts["dirty"] > 40, "{counts:?}");
}

#[test]
fn histories_of_4096_and_4097_lines() {
    let verdicts = |count: &str| -> Vec<String> {
        (0..40u64)
            .map(|seed| shown(&verdict_line(&made(&["make", "histories", &seed.to_string(), count]))))
            .collect()
    };
    let full = verdicts("4096");
    for word in ["orderly", "knot", "dirty"] {
        assert!(full.iter().filter(|line| line.starts_with(word)).count() > 3, "{word}: {full:?}");
    }
    assert!(full.iter().all(|line| !line.ends_with("\t11\n")));
    let more = verdicts("4097");
    assert!(more.iter().filter(|line| *line == "no\t4097\t11\n").count() > 8, "{more:?}");
}

#[test]
fn lines_reach_every_reading() {
    for seed in [1u64, 4] {
        let input = made(&["make", "lines", &seed.to_string(), "5000"]);
        assert_eq!(input.ends_with(b"\n"), seed == 4);
        let lines: Vec<&[u8]> = input.split_inclusive(|&byte| byte == b'\n').collect();
        assert_eq!(lines.len(), 5000);
        let count = |says: &dyn Fn(&[u8]) -> bool| lines.iter().filter(|line| says(line)).count();
        for &letter in REQUEST_LETTERS {
            assert!(count(&|line| read_request(line).is_ok_and(|read| read.letter == letter)) > 20);
        }
        for &letter in HISTORY_LETTERS {
            assert!(count(&|line| read_history(line).is_ok_and(|read| read.letter == letter)) > 20);
        }
        let bad = count(&|line| read_request(line).is_err() && read_history(line).is_err());
        assert!(bad > 1500 && bad < 3500, "{bad}");
        let holds = |part: &[u8]| count(&|line| line.windows(part.len()).any(|window| window == part));
        for part in [
            "\t\t", "\r\n", "\0", " ", "+", "-", "\t00", "\t07", "\t100\n", "R\t", "\t0\t", "\t63\n",
            "\t64\n",
        ] {
            assert!(holds(part.as_bytes()) > 2, "{part:?}");
        }
        for part in [
            "\t4294967295",
            "\t4294967296",
            "\t10000000000",
            "\t18446744073709551616",
            "\t99999999999999999999",
        ] {
            assert!(holds(part.as_bytes()) > 2, "{part:?}");
        }
        assert!(count(&|line| line == b"\n") > 20);
        assert!(count(&|line| line.len() > 1_000) > 2);
    }
}
