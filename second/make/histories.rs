//! Histories: orderly, knotted, loose and the desk's own, clean, nearly dirty and dirty, some of them
//! faulty.

use super::dirt::{some_dirt, with_dirt};
use super::lines::spoil_line;
use super::requests::Maker;
use super::Chance;
use crate::desk::history_of;
use crate::lines::put_fields;
use crate::words::*;

/// The shapes of `make histories`, with or without dirt, then faults in some of them.
pub fn history_lines(seed: u64, count: usize) -> Vec<Vec<u8>> {
    let mut chance = Chance(seed);
    chance.number();
    let dirt = some_dirt(&mut chance);
    let mut events = with_dirt(&mut chance, dirt, count, |chance, count| match seed % 8 {
        0 | 1 => ranked_history(chance, count),
        2..=4 => knotted_history(chance, count),
        5 => loose_history(chance, count),
        6 => desk_history(seed, count, 255),
        _ => desk_history(seed, count, LAST_NUMBER),
    });
    let faulty = chance.percent(35) && count > 0;
    if faulty {
        for _ in 0..chance.of(&[1, 1, 1, 2, 4]) {
            put_fault(&mut chance, &mut events);
        }
    }
    let mut text: Vec<Vec<u8>> = events.iter().map(|&event| fields_of(event)).collect();
    if faulty && chance.percent(30) {
        let at = chance.below(count);
        text[at] = spoil_line(&mut chance, &text[at]);
    }
    if count > 0 && chance.percent(4) {
        fill_text(&mut chance, &mut text);
    }
    text
}

pub fn fields_of(event: Line) -> Vec<u8> {
    let mut line = Vec::new();
    put_fields(&mut line, event);
    line
}

/// Makes the text about 65,536 bytes long, newlines counted, by a run of one byte in the last line.
pub fn fill_text(chance: &mut Chance, text: &mut [Vec<u8>]) {
    let length: usize = text.iter().map(|line| line.len() + 1).sum();
    let wanted = HISTORY_BYTES + chance.of(&[0, 0, 1, 1, 2]);
    if let Some(last) = text.last_mut() {
        let at = chance.of(&[0, last.len(), last.len(), last.len()]);
        last.splice(at..at, vec![chance.of(b"7777\t\t\tx0 "); wanted.saturating_sub(length)]);
    }
}

/// 01, Refusals by number: puts 12, 2, 13 or two of them on one line; at times with a `u`, which is 9.
pub fn put_fault(chance: &mut Chance, events: &mut [Line]) {
    let at = chance.below(events.len());
    let outside = chance.of(&[0, 256, 257, 511, 65_537, LAST_NUMBER]);
    let ended: Vec<u32> = events[..at]
        .iter()
        .filter(|event| matches!(event.letter, COMMIT | GIVE_UP))
        .map(|event| event.job)
        .collect();
    let kind = chance.below(5);
    if kind <= 1 {
        events[at].job = outside;
    } else if kind >= 3 && !ended.is_empty() {
        events[at].letter = chance.of(HISTORY_LETTERS);
        events[at].job = chance.of(&ended);
    }
    if kind == 1 || kind == 2 || kind == 4 {
        events[at].letter = chance.of(b"rwi");
        events[at].cell = chance.of(&[64, 65, 99]);
    }
    if chance.percent(15) {
        events[at].letter = UPDATE;
    }
}

/// So many different jobs of 1 to 255, in any order.
pub fn some_jobs(chance: &mut Chance, count: usize) -> Vec<u32> {
    let mut jobs: Vec<u32> = (1..=HISTORY_JOBS as u32).collect();
    chance.shuffle(&mut jobs);
    jobs.truncate(count);
    jobs
}

/// Puts the job's end somewhere after its last line.
pub fn put_end(chance: &mut Chance, events: &mut Vec<Line>, letter: u8, job: u32) {
    let after = events.iter().rposition(|event| event.job == job).map_or(0, |last| last + 1);
    let at = chance.between(after, events.len());
    events.insert(at, Line { letter, job, cell: 0 });
}

/// Puts a run that was sent back somewhere before the job's first line: two lines.
pub fn put_lost_run(chance: &mut Chance, events: &mut Vec<Line>, job: u32) {
    let first = events.iter().position(|event| event.job == job).unwrap_or(events.len());
    let at = chance.between(0, first);
    let lost = Line { letter: chance.of(b"rwi"), job, cell: chance.below(CELLS) as u32 };
    events.splice(at..at, [lost, Line { letter: SENT_BACK, job, cell: 0 }]);
}

/// An orderly history: on each cell the jobs act in rising rank, lost runs apart.
pub fn ranked_history(chance: &mut Chance, count: usize) -> Vec<Line> {
    let most = chance.of(&[3, 10, 60, 255]).min(count / 3 + 1);
    let many = chance.between(1, most);
    let jobs = some_jobs(chance, many);
    let ending: Vec<u32> = jobs.iter().copied().filter(|_| chance.percent(95)).collect();
    let lost = chance.below(count.saturating_sub(ending.len()) / 8 + 1);
    let actions = count.saturating_sub(ending.len() + 2 * lost);
    let cells = chance.between(1, CELLS);
    let stride = 2 * many * cells / (actions + 1) + 1;
    let mut rank = vec![0; cells];
    let mut events = Vec::new();
    for _ in 0..actions {
        let cell = chance.below(cells);
        rank[cell] = (rank[cell] + chance.below(stride + 1)).min(many - 1);
        events.push(Line { letter: chance.of(b"rwi"), job: jobs[rank[cell]], cell: cell as u32 });
    }
    for job in ending {
        let letter = if chance.percent(90) { COMMIT } else { GIVE_UP };
        put_end(chance, &mut events, letter, job);
    }
    for _ in 0..lost {
        let job = chance.of(&jobs);
        put_lost_run(chance, &mut events, job);
    }
    events.truncate(count);
    events
}

/// Kinds of two conflicting actions, the earlier first.
pub const CONFLICTS: &[(u8, u8)] = &[
    (WRITE, WRITE),
    (READ, WRITE),
    (WRITE, READ),
    (INCREMENT, WRITE),
    (WRITE, INCREMENT),
    (READ, INCREMENT),
    (INCREMENT, READ),
];

/// A history with a cycle of some length.
pub fn knotted_history(chance: &mut Chance, count: usize) -> Vec<Line> {
    let wanted = match chance.below(4) {
        0 => chance.between(2, 4),
        1 => chance.between(2, 63),
        2 => chance.between(64, 255),
        _ => chance.of(&[2, 3, 63, 64, 254, 255, 255, 255]),
    };
    knot_history(chance, wanted, count)
}

/// A history with a cycle of a wanted length, and jobs before, behind and beside it.
pub fn knot_history(chance: &mut Chance, wanted: usize, count: usize) -> Vec<Line> {
    let length = wanted.min(count / 3);
    if length < 2 {
        return loose_history(chance, count);
    }
    let mut jobs = some_jobs(chance, HISTORY_JOBS);
    let others = jobs.split_off(length);
    let mut events = cycle_events(chance, &mut jobs);
    let mut loose = Vec::new();
    for job in others {
        if events.len() + jobs.len() + 2 > count || loose.len() > 20 {
            break;
        }
        let action = Line { letter: WRITE, job, cell: events[chance.below(events.len())].cell };
        match chance.below(4) {
            0 => events.insert(0, action),
            1 => events.push(action),
            2 => {}
            _ => {
                loose.push(job);
                continue;
            }
        }
        jobs.push(job);
    }
    while events.len() + jobs.len() < count {
        pad_knot(chance, &mut events, &jobs, &loose, count - jobs.len());
    }
    for job in jobs {
        put_end(chance, &mut events, COMMIT, job);
    }
    events
}

/// Edges from each job to the next and from the last to the first. On few cells the jobs
/// run from the largest to the smallest: then edges that skip jobs change no knot.
pub fn cycle_events(chance: &mut Chance, jobs: &mut [u32]) -> Vec<Line> {
    let length = jobs.len();
    if length >= CELLS {
        jobs.sort_by(|one, other| other.cmp(one));
    }
    let mut cells: Vec<u32> = (0..CELLS as u32).collect();
    chance.shuffle(&mut cells);
    let mut pairs = Vec::new();
    for at in 0..length {
        // The edge from the last job to the first has the last cell for itself, and comes first.
        let from = (at + length - 1) % length;
        let cell = if at == 0 { cells[CELLS - 1] } else { cells[at % (CELLS - 1)] };
        let (earlier, later) = chance.of(CONFLICTS);
        pairs.push([
            Line { letter: earlier, job: jobs[from], cell },
            Line { letter: later, job: jobs[at], cell },
        ]);
    }
    if length < CELLS {
        chance.shuffle(&mut pairs);
    }
    pairs.concat()
}

/// One or two more lines that leave the committed part's edges as they are.
pub fn pad_knot(chance: &mut Chance, events: &mut Vec<Line>, jobs: &[u32], loose: &[u32], room: usize) {
    let at = chance.below(events.len());
    if chance.percent(30) && !loose.is_empty() {
        let cell = chance.below(CELLS) as u32;
        events.insert(at, Line { letter: chance.of(b"rwirwirwik"), job: chance.of(loose), cell });
    } else if chance.percent(30) && events.len() + 2 <= room {
        let job = chance.of(jobs);
        put_lost_run(chance, events, job);
    } else if has_cell(events[at].letter) {
        events.insert(at, events[at]);
    }
}

/// Anything goes: few or many jobs and cells, some sent back, some never ended.
pub fn loose_history(chance: &mut Chance, count: usize) -> Vec<Line> {
    let many = chance.of(&[2, 3, 5, 20, 100, 255]);
    let mut jobs = some_jobs(chance, many);
    let cells = chance.of(&[1, 2, 5, 20, 64]);
    let reads = chance.of(&[20, 50, 90]);
    let end = chance.of(&[1, 5, 20]);
    let mut events = Vec::new();
    while events.len() < count {
        let place = chance.below(jobs.len());
        let job = jobs[place];
        let letter = if chance.percent(end) {
            chance.of(b"ccccak")
        } else if chance.percent(reads) {
            READ
        } else {
            chance.of(b"wi")
        };
        if matches!(letter, COMMIT | GIVE_UP) && (jobs.len() > 1 || events.len() + 1 == count) {
            jobs.swap_remove(place);
        } else if matches!(letter, COMMIT | GIVE_UP) {
            continue;
        }
        events.push(Line { letter, job, cell: chance.below(cells) as u32 });
    }
    events
}

/// A history that the desk itself writes, with jobs up to `last_begin`.
pub fn desk_history(seed: u64, count: usize, last_begin: u32) -> Vec<Line> {
    let mut maker = Maker::new(seed, 1, last_begin, false);
    let mut events = Vec::new();
    while events.len() < count {
        let asked = maker.choose();
        let outcome = maker.desk.step(asked);
        events.extend(history_of(asked, &outcome));
    }
    events.truncate(count);
    events
}
