//! The makers of chains (02, No. 3): the same bytes for ever, and every shape comes up.

use super::makers::hash;
use super::{made, printed, shown};
use crate::chain::{ask_chain, put_chains};
use crate::commands::{read_question, read_step};
use crate::desk::{Answer, Cell, Desk, Status};
use crate::lines::read_request;
use crate::words::*;
use std::collections::{BTreeMap, BTreeSet};

#[test]
fn same_seed_same_bytes_for_ever() {
    let all = |words: &[&str]| -> Vec<u8> {
        let of = |seed: u64| made(&[&words[..2], &[&seed.to_string()], &words[2..]].concat());
        (0..24).flat_map(of).collect()
    };
    let found = [
        hash(&all(&["make", "chains", "700"])),
        hash(&all(&["make", "asked", "700"])),
        hash(&all(&["make", "asked", "700", "4294967258"])),
    ];
    assert_eq!(found, PINNED, "the makers' bytes have changed");
    assert_eq!(made(&["make", "asked", "3", "50", "0"]), made(&["make", "asked", "3", "50", "1"]));
    assert_eq!(printed(&["make", "chains", "3", "50", "1"], b"").1, 2);
}

/// Pinned bytes: the hashes of what the makers make.
const PINNED: [u64; 3] = [11220030208680602535, 13321097637411434378, 17785166514819636199];

/// What a desk shows of the shapes wanted.
fn shapes(desk: &Desk) -> BTreeSet<String> {
    let mut found = BTreeSet::new();
    let chains: Vec<Vec<u32>> = desk
        .jobs
        .iter()
        .filter(|job| job.status == Status::Waiting)
        .map(|job| desk.chain(job.number))
        .collect();
    found.extend(chains.iter().map(|chain| format!("chain of {}", chain.len())));
    found.extend(desk.cells.iter().flat_map(jams));
    let ends: BTreeSet<u32> = chains.iter().map(|chain| chain[chain.len() - 1]).collect();
    let last_but_one: BTreeSet<(u32, u32)> = chains
        .iter()
        .filter(|chain| chain.len() > 2)
        .map(|chain| (chain[chain.len() - 1], chain[chain.len() - 2]))
        .collect();
    let mut show = |shown: bool, what: &str| found.extend(shown.then(|| what.to_string()));
    show(chains.is_empty(), "nobody waits");
    show(ends.len() == 1, "one end");
    show(ends.len() > 1, "chains apart");
    show(ends.len() > 3, "many chains apart");
    let meet = ends.iter().any(|&end| last_but_one.iter().filter(|pair| pair.0 == end).count() > 1);
    show(meet, "long chains that meet in a running job");
    show(desk.jobs.len() == PLACES, "32 open");
    show(desk.jobs.iter().any(|job| job.status == Status::SentBack), "sent back beside");
    show(ends.iter().any(|&end| end == LAST_NUMBER), "the last number ends a chain");
    found
}

/// What a cell for which somebody waits shows.
fn jams(cell: &Cell) -> BTreeSet<String> {
    let mut found = BTreeSet::new();
    let Some(first) = cell.queue.front() else {
        return found;
    };
    let mut show = |shown: bool, what: &str| found.extend(shown.then(|| what.to_string()));
    let promotion = cell.held_by(first.job);
    let others = cell.holders.iter().filter(|holder| holder.job != first.job);
    let mut modes: Vec<String> = others.map(|holder| format!("{:?}", holder.mode)).collect();
    modes.sort();
    modes.dedup();
    let several = cell.holders.len() - usize::from(promotion.is_some()) > 1;
    show(true, &format!("waits at {}{}", modes.join(" and "), if several { ", several" } else { "" }));
    if let Some(mode) = promotion {
        show(true, &format!("promotion of {mode:?} waits"));
        show(cell.queue.len() > 1, "promotion with one behind");
        show(cell.queue.len() > 3, "promotion with many behind");
    }
    for (least, what) in [(2, "queue of 2"), (5, "queue of 5"), (10, "queue of 10"), (20, "queue of 20")] {
        show(cell.queue.len() >= least, what);
    }
    let came = |of: fn(&[u32]) -> Option<&u32>| {
        of(&cell.holders.iter().map(|h| h.job).collect::<Vec<_>>()).copied()
    };
    let youngest = cell.holders.iter().map(|holder| holder.job).max();
    show(came(<[u32]>::first) != youngest, "the youngest did not come first");
    show(came(<[u32]>::last) != youngest, "the youngest did not come last");
    found
}

#[rustfmt::skip]
const WANTED: &[&str] = &[
    "one end", "chains apart", "many chains apart", "long chains that meet in a running job", "32 open",
    "sent back beside", "waits at X", "waits at S", "waits at U", "waits at I", "waits at S, several",
    "waits at S and U, several", "waits at I, several", "promotion of S waits", "promotion of U waits",
    "promotion of I waits", "promotion with one behind", "promotion with many behind", "queue of 2",
    "queue of 5", "queue of 10", "queue of 20", "the youngest did not come first",
    "the youngest did not come last",
];

fn lengths() -> Vec<String> {
    (2..=32).map(|length| format!("chain of {length}")).collect()
}

/// All shapes are there, each so many times at least.
fn all_found(counts: &BTreeMap<String, usize>, least: usize) {
    for what in WANTED.iter().map(|what| what.to_string()).chain(lengths()) {
        let count = counts.get(&what).copied().unwrap_or(0);
        assert!(count >= least, "{what}: {count}, of {counts:?}");
    }
}

/// The desk at the end of a text of requests, and whether all of its lines are good.
fn desk_of(input: &[u8]) -> (Desk, bool) {
    let mut desk = Desk::start(1).unwrap();
    let mut good = true;
    for line in input.split_inclusive(|&byte| byte == b'\n') {
        match read_request(line) {
            Ok(asked) => drop(desk.step(asked)),
            Err(_) => good = false,
        }
    }
    (desk, good)
}

#[test]
fn every_shape_is_there_at_an_end() {
    let mut counts: BTreeMap<String, usize> = BTreeMap::new();
    for seed in 0..1_200u64 {
        let count = 40 + seed * 37 % 300;
        let input = made(&["make", "chains", &seed.to_string(), &count.to_string()]);
        assert_eq!(input.split_inclusive(|&byte| byte == b'\n').count() as u64, count);
        let (desk, good) = desk_of(&input);
        let mut found = shapes(&desk);
        found.insert(if good { "good lines alone" } else { "rubbish" }.to_string());
        found.extend((!input.ends_with(b"\n")).then(|| "torn".to_string()));
        found.into_iter().for_each(|what| *counts.entry(what).or_insert(0) += 1);
        let mut wanted = Vec::new();
        put_chains(&mut wanted, &desk);
        assert_eq!(printed(&["chain"], &input), (wanted, 0));
    }
    all_found(&counts, 10);
    assert!((100..350).contains(&counts["nobody waits"]), "{counts:?}");
    assert!(
        counts["torn"] > 40 && counts["rubbish"] > 300 && counts["good lines alone"] > 300,
        "{counts:?}"
    );
}

#[test]
fn every_shape_is_asked_about() {
    for first in [1, LAST_NUMBER - 37] {
        let mut counts: BTreeMap<String, usize> = BTreeMap::new();
        for seed in 0..24u64 {
            let input = made(&["make", "asked", &seed.to_string(), "1500", &first.to_string()]);
            let mut desk = Desk::start(first).unwrap();
            for line in input.split_inclusive(|&byte| byte == b'\n') {
                let found = match read_question(line) {
                    Some((job, places)) => asked(&desk, job, places),
                    None => stepped(&mut desk, read_step(line).expect("a step or a question")),
                };
                found.into_iter().for_each(|what| *counts.entry(what).or_insert(0) += 1);
            }
        }
        all_found(&counts, 10);
        for what in ASKED {
            let count = counts.get(*what).copied().unwrap_or(0);
            assert!(count > 9, "{what}: {count}, of {counts:?}");
        }
        let last = counts.get("the last number ends a chain").copied().unwrap_or(0);
        assert_eq!(last > 20, first > 1, "{last}");
    }
}

#[rustfmt::skip]
const ASKED: &[&str] = &[
    "Waiting with 0", "Waiting with 1", "Waiting with 31", "Waiting with 32", "Waiting with 33",
    "Waiting with 64", "Waiting with more than 64", "Running with 0", "Running with 31", "Running with 32",
    "Running with 64", "SentBack with 0", "SentBack with 31", "SentBack with 32", "closed with 31",
    "closed with 32", "never given with 31", "never given with 32", "0 with 0", "0 with 32",
    "4294967295 with 32", "no 1", "no 2", "no 3", "no 4", "no 5",
];

/// What a question shows; of a waiting job's, where it is answered, the shapes that are there.
fn asked(desk: &Desk, job: u32, places: u32) -> BTreeSet<String> {
    let who = match desk.status(job) {
        Some(status) => format!("{status:?}"),
        None if job == 0 || job == LAST_NUMBER => job.to_string(),
        None if u64::from(job) >= desk.next => "never given".to_string(),
        None => "closed".to_string(),
    };
    let lent = if places > 64 { "more than 64".to_string() } else { places.to_string() };
    let mut found = BTreeSet::from([format!("{who} with {lent}")]);
    let answer = ask_chain(desk, job, &mut vec![0; places.min(64) as usize]);
    if desk.status(job) == Some(Status::Waiting) && answer.is_ok() {
        found.extend(shapes(desk).into_iter().filter(|what| !what.starts_with("chain of")));
        found.insert(format!("chain of {}", desk.chain(job).len()));
    }
    found
}

fn stepped(desk: &mut Desk, asked: Line) -> BTreeSet<String> {
    match desk.step(asked).answer {
        Answer::No(number) => BTreeSet::from([format!("no {number}")]),
        _ => BTreeSet::new(),
    }
}

#[test]
fn questions_change_nothing() {
    for seed in ["1", "2", "3"] {
        let input = made(&["make", "asked", seed, "1000"]);
        let question = |line: &&[u8]| read_question(line).is_some();
        let lines: Vec<&[u8]> = input.split_inclusive(|&byte| byte == b'\n').collect();
        let steps: Vec<&[u8]> = lines.iter().copied().filter(|line| !question(line)).collect();
        let (whole, status) = printed(&["steps", "1"], &input);
        assert_eq!(status, 0);
        let whole: Vec<&[u8]> = whole.split_inclusive(|&byte| byte == b'\n').collect();
        assert_eq!(whole.len(), lines.len());
        let answers = lines.iter().zip(whole).filter(|(line, _)| !question(line)).map(|(_, answer)| answer);
        let alone = printed(&["steps", "1"], &steps.concat()).0;
        assert_eq!(shown(&answers.collect::<Vec<&[u8]>>().concat()), shown(&alone));
    }
}
