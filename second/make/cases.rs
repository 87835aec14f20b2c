//! Cases for the judge: a header and a history each.

use super::dirt::{bare_spot, mend, some_dirt, with_dirt, Dirt, DIRTY, NEAR};
use super::faults::torn_line;
use super::histories::{
    desk_history, fields_of, knot_history, knotted_history, loose_history, ranked_history,
};
use super::lines::{odd_line, spoil_line};
use super::Chance;
use crate::commands::CASE_MARK;
use crate::words::*;

/// The kinds of case, which come in turn.
pub const CASE_KINDS: u64 = 26;

/// One case of `make cases`: its header and its history, each line with its newline, but the last without
/// one if `torn`.
pub fn case_text(chance: &mut Chance, number: u64, torn: bool) -> Vec<u8> {
    let places = chance.of(&[255, 255, 255, 255, 255, 256, 257, 299, 300, 300, 300, 254]);
    let places = if number % 40 == 39 { chance.of(&[0, 1, 32, 200, 254, 254]) } else { places };
    let mut text = format!("= {places}\n").into_bytes();
    let mut lines = case_lines(chance, number);
    if let (true, Some(last)) = (torn, lines.last_mut()) {
        *last = torn_line(chance, last);
    }
    for mut line in lines {
        if line.first() == Some(&CASE_MARK) {
            line[0] = b'-';
        }
        text.extend(line);
        text.push(b'\n');
    }
    if torn {
        text.pop();
    }
    text
}

pub fn case_lines(chance: &mut Chance, number: u64) -> Vec<Vec<u8>> {
    let count = chance.of(&[3, 6, 12, 30, 60, 120, 240]);
    let kind = number % CASE_KINDS;
    let mut events = match kind {
        0 => ranked_history(chance, count),
        1 => knot_case(chance, 2, 4),
        2 => knot_case(chance, 5, 62),
        3 => knot_case(chance, 63, 64),
        4 => knot_case(chance, 65, 253),
        5 => knot_case(chance, 254, 255),
        6 => loose_history(chance, count),
        7 => desk_history(chance.number(), count, 255),
        8 => backed_history(chance, count),
        9 => edge_jobs_history(chance, count),
        10 | 16 => return full_lines(chance, number),
        17..=25 => dirt_case(chance, kind, count),
        _ => {
            let dirt = chance.of(&[Dirt::Mended, Dirt::AsMade, Dirt::Dirty]);
            with_dirt(chance, dirt, count, some_history)
        }
    };
    if kind < 6 || kind < 10 && chance.percent(75) {
        mend(chance, &mut events, &[]);
    }
    let mut lines: Vec<Vec<u8>> = events.iter().map(|&event| fields_of(event)).collect();
    if (11..=15).contains(&kind) && !lines.is_empty() {
        put_case_fault(chance, kind, &events, &mut lines);
    }
    lines
}

/// A dirty spot alone and a near one alone; dirty and near ones among other lines and in a knot; and a
/// history as it is made.
pub fn dirt_case(chance: &mut Chance, kind: u64, count: usize) -> Vec<Line> {
    let knot = |chance: &mut Chance, count: usize| {
        let wanted = chance.between(2, 40);
        knot_history(chance, wanted, count)
    };
    match kind {
        17 | 24 => bare_spot(chance, DIRTY),
        18 => bare_spot(chance, NEAR),
        19 | 25 => with_dirt(chance, Dirt::Dirty, count + 12, some_history),
        20 => with_dirt(chance, Dirt::Near, count + 12, some_history),
        21 => with_dirt(chance, Dirt::Dirty, count + 24, knot),
        22 => with_dirt(chance, Dirt::Near, count + 24, knot),
        _ => some_history(chance, count),
    }
}

/// An orderly history, a knot or a loose one, with no fault.
pub fn some_history(chance: &mut Chance, count: usize) -> Vec<Line> {
    match chance.below(3) {
        0 => ranked_history(chance, count),
        1 => knotted_history(chance, count),
        _ => loose_history(chance, count),
    }
}

/// A knot of a length between two, with a few more lines than it needs.
pub fn knot_case(chance: &mut Chance, low: usize, high: usize) -> Vec<Line> {
    let wanted = chance.between(low, high);
    let more = chance.of(&[0, 1, 7, 50]);
    knot_history(chance, wanted, 3 * wanted + more)
}

/// A history with a `k` put in at several places: before all, after all, before a commit,
/// twice, of a job that does nothing else; and where its job has ended, which is a fault.
pub fn backed_history(chance: &mut Chance, count: usize) -> Vec<Line> {
    let mut events = some_history(chance, count);
    for _ in 0..chance.of(&[1, 1, 1, 2, 5, 20]) {
        let anywhere = chance.below(events.len() + 1);
        let at = chance.of(&[0, events.len(), anywhere, anywhere]);
        let stranger = chance.between(1, HISTORY_JOBS) as u32;
        let job = if events.is_empty() || chance.percent(10) {
            stranger
        } else {
            events[chance.below(events.len())].job
        };
        let ended = |event: &Line| matches!(event.letter, COMMIT | GIVE_UP) && event.job == job;
        if chance.percent(15) || !events[..at].iter().any(ended) {
            events.insert(at, Line { letter: SENT_BACK, job, cell: 0 });
        }
    }
    events
}

/// Jobs at the edges of 1 to 255; a line of 256, which is a fault, in two of five.
pub fn edge_jobs_history(chance: &mut Chance, count: usize) -> Vec<Line> {
    let jobs = [1, 2, 127, 128, 254, 255];
    let mut events = Vec::new();
    for _ in 0..count {
        let letter = chance.of(b"rrwwik");
        events.push(Line { letter, job: chance.of(&jobs), cell: chance.below(3) as u32 });
    }
    events.extend(jobs.iter().map(|&job| Line { letter: COMMIT, job, cell: 0 }));
    if chance.percent(40) {
        let at = chance.below(events.len() + 1);
        let letter = chance.of(HISTORY_LETTERS);
        events.insert(at, Line { letter, job: 256, cell: chance.below(CELLS) as u32 });
    }
    events
}

/// 4,096 lines, nearly dirty and dirty in turn; or anything, and in two of three cases one or two lines
/// more: a good, a bad or an empty one.
pub fn full_lines(chance: &mut Chance, number: u64) -> Vec<Vec<u8>> {
    let round = number / CASE_KINDS;
    let (dirt, more) = match number % CASE_KINDS {
        10 => (some_dirt(chance), round % 3),
        _ => ([Dirt::Near, Dirt::Dirty][(round % 2) as usize], 0),
    };
    let events = with_dirt(chance, dirt, HISTORY_LINES, some_history);
    let mut lines: Vec<Vec<u8>> = events.iter().map(|&event| fields_of(event)).collect();
    for _ in 0..more {
        let more = [b"c\t1".to_vec(), Vec::new(), b"r\t256\t64".to_vec(), odd_line(chance)];
        lines.push(more[chance.below(more.len())].clone());
    }
    lines
}

/// One fault of a kind on a line: 9, 12, 2, 13, and several on one line or on several.
pub fn put_case_fault(chance: &mut Chance, kind: u64, events: &[Line], lines: &mut [Vec<u8>]) {
    let ends = |event: &&Line| matches!(event.letter, COMMIT | GIVE_UP);
    let first_end = events.iter().position(|event| ends(&event)).unwrap_or(0);
    let at = if kind < 14 { chance.below(lines.len()) } else { chance.between(first_end, lines.len() - 1) };
    let ended: Vec<u32> = events[..at].iter().filter(ends).map(|event| event.job).collect();
    let outside = chance.of(&[0, 256, 257, 1_000, 65_536, LAST_NUMBER]);
    let above = chance.of(&[64, 65, 99]);
    let mut event = events[at];
    match kind {
        11 if chance.percent(25) => event.letter = UPDATE,
        11 => {
            lines[at] = spoil_line(chance, &lines[at]);
            return;
        }
        12 => event.job = outside,
        13 => {
            event.letter = chance.of(b"rwi");
            event.cell = above;
        }
        14 => {
            event.letter = chance.of(HISTORY_LETTERS);
            event.job = if ended.is_empty() { event.job } else { chance.of(&ended) };
        }
        _ => {
            event.letter = chance.of(b"rwirwiu");
            event.cell = above;
            event.job = if ended.is_empty() || chance.percent(50) { outside } else { chance.of(&ended) };
            let other = chance.below(lines.len());
            lines[other] = spoil_line(chance, &lines[other]);
        }
    }
    lines[at] = fields_of(event);
}
