//! The maker of histories with several cycles: by brute force, how many of them tell a wrong walk from the
//! right one, and what is in them.

use super::makers::hash;
use super::{check_verdict, made};
use crate::commands::verdict_line;
use crate::judge::{edges_of, first_dirty, judge_line, Edges, History};
use crate::words::*;

/// The committed part of a made history, as jobs and edges.
struct Part {
    jobs: Vec<usize>,
    edges: Edges,
}

impl Part {
    fn of(text: &[u8]) -> Part {
        let mut history = History::empty();
        for (before, line) in text.split_inclusive(|&byte| byte == b'\n').enumerate() {
            history.take(judge_line(&history, before + 1, line).expect("a made line is faultless"));
        }
        assert_eq!(first_dirty(&history.lines), None);
        let jobs = (1..=HISTORY_JOBS).filter(|&job| history.committed[job]).collect();
        Part { jobs, edges: edges_of(&history) }
    }

    /// What is left when jobs without a remaining predecessor are taken away, and if `both` those without a
    /// remaining successor too.
    fn left(&self, both: bool) -> Vec<usize> {
        let mut left = self.jobs.clone();
        loop {
            let has = |job: usize, ahead: bool| {
                left.iter().any(|&other| if ahead { self.edges[other][job] } else { self.edges[job][other] })
            };
            let stays = |job: usize| has(job, true) && (!both || has(job, false));
            let fewer: Vec<usize> = left.iter().copied().filter(|&job| stays(job)).collect();
            if fewer.len() == left.len() {
                return left;
            }
            left = fewer;
        }
    }

    /// Whether a way along edges leads from one job to another.
    fn leads(&self, from: usize, to: usize) -> bool {
        let mut met = vec![from];
        let mut at = 0;
        while at < met.len() {
            for &job in &self.jobs {
                if self.edges[met[at]][job] && job == to {
                    return true;
                }
                if self.edges[met[at]][job] && !met.contains(&job) {
                    met.push(job);
                }
            }
            at += 1;
        }
        false
    }

    /// The knot of a walk among the jobs left, from this one.
    fn knot(&self, left: &[usize], start: usize) -> Vec<usize> {
        let mut way = vec![start];
        loop {
            let here = way[way.len() - 1];
            let next = left.iter().copied().filter(|&job| self.edges[job][here]).min().unwrap();
            if let Some(first) = way.iter().position(|&job| job == next) {
                let mut told: Vec<usize> = way[first..].to_vec();
                told.reverse();
                while told[0] != *told.iter().min().unwrap() {
                    told.rotate_left(1);
                }
                return told;
            }
            way.push(next);
        }
    }

    /// The jobs on cycles, one of each.
    fn cycles(&self) -> Vec<usize> {
        let mut found: Vec<usize> = Vec::new();
        for &job in self.jobs.iter().filter(|&&job| self.leads(job, job)) {
            if !found.iter().any(|&other| self.leads(job, other) && self.leads(other, job)) {
                found.push(job);
            }
        }
        found
    }
}

/// Histories of a hundred lines or so, and some of a few.
fn knots(seed: u64) -> Vec<u8> {
    let count = [17, 40, 90, 140, 300][seed as usize % 5];
    made(&["make", "knots", &seed.to_string(), &count.to_string()])
}

#[test]
fn a_fifth_tell_each_wrong_walk_apart() {
    let mut apart = [0; 3];
    let seeds = 250;
    for seed in 0..seeds {
        let text = knots(seed);
        let part = Part::of(&text);
        let left = part.left(false);
        let right = part.knot(&left, left[0]);
        let told: String = right.iter().map(|job| format!("\t{job}")).collect();
        assert_eq!(verdict_line(&text), format!("knot{told}\n").into_bytes(), "seed {seed}");
        let largest = part.knot(&left, left[left.len() - 1]);
        let on_cycle = left.iter().copied().find(|&job| part.leads(job, job)).unwrap();
        let trimmed = part.left(true);
        let wrong = [largest, part.knot(&left, on_cycle), part.knot(&trimmed, trimmed[0])];
        for (count, knot) in apart.iter_mut().zip(&wrong) {
            *count += u64::from(knot != &right);
        }
    }
    assert!(
        apart.iter().all(|&count| 5 * count >= seeds),
        "from the largest, from the smallest on a cycle, trimmed both ways: {apart:?}"
    );
}

#[test]
fn several_cycles_and_jobs_ahead_and_behind() {
    let (mut ahead, mut behind, mut between, mut lost) = (0, 0, 0, 0);
    for seed in 0..100 {
        let text = knots(seed);
        let part = Part::of(&text);
        assert!(part.cycles().len() >= 2, "seed {seed}: {:?}", part.cycles());
        let (left, trimmed) = (part.left(false), part.left(true));
        ahead += usize::from(left.len() < part.jobs.len());
        behind += usize::from(trimmed.len() < left.len());
        between += usize::from(trimmed.iter().any(|&job| !part.leads(job, job)));
        lost += usize::from(text.starts_with(b"k") || text.windows(2).any(|two| two == b"\nk"));
    }
    let counts = [ahead, behind, between, lost];
    assert!(ahead > 50 && behind == 100 && between > 5 && lost > 50, "{counts:?}");
}

#[test]
fn so_many_lines_and_the_same_bytes_for_ever() {
    for count in [0, 1, 5, 14, 15, 16, 60, 4_096] {
        for seed in 0..8u64 {
            let text = made(&["make", "knots", &seed.to_string(), &count.to_string()]);
            assert_eq!(text.iter().filter(|&&byte| byte == b'\n').count(), count, "seed {seed}");
        }
    }
    let all: Vec<Vec<u8>> = (0..50).map(knots).collect();
    assert_eq!(hash(&all.concat()), 12069871136324696138, "the maker's bytes have changed");
}

#[test]
fn two_cycles_and_a_job_behind_one() {
    // 2 and 6 give to each other, 4 and 5 too; the walk starts at 1, behind these, and 3 is taken away
    let commits = "c 1, c 2, c 3, c 4, c 5, c 6";
    for actions in [
        "w 2 0, w 6 0, w 6 1, w 2 1, w 4 2, w 5 2, w 5 3, w 4 3, w 5 4, w 1 4, w 3 5, w 4 5",
        "w 2 0, w 6 0, w 2 0, w 3 2, w 4 2, w 5 2, w 4 2, w 1 2",
    ] {
        check_verdict(&format!("{actions}, {commits}"), "knot 4 5");
    }
}
