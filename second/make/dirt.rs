//! Dirt (02, No. 2): spots that make a history dirty, spots that come near it, and the mending of
//! a history that is to be clean.

use super::Chance;
use crate::judge::{dirty_write, run_ends};
use crate::words::*;

/// Spots that are dirty, each line a letter, a job and a cell: R is the reader told and W the writer;
/// S, T and V are others.
#[rustfmt::skip]
pub const DIRTY: &[&str] = &[
    // the writer is sent back, gives up, never ends; before the reader's commit and after it
    "wWx rRx kW cR", "iWx rRx kW cR", "wWx rRx aW cR", "iWx rRx aW cR", "wWx rRx cR", "iWx rRx cR",
    "wWx rRx cR kW", "iWx rRx cR kW", "wWx rRx cR aW", "iWx rRx cR aW", "wWx rRx cR rWx iWy",
    // its job goes on, and may commit in a later run
    "wWx rRx kW cW cR", "iWx rRx kW cR cW", "wWx rRx kW wWx cW cR", "iWx rRx kW rWx iWx cR cW",
    "wWx rRx kW kW cR cW", "wWx rRx kW wWx kW cR cW", "wWx rRx kW wWx aW cR", "wWx rRx kW rWy cR",
    // earlier runs of both
    "kW wWx rRx kW cR", "wWy kW iWx rRx cR aW", "wWx kW wWx rRx cR", "kR wWx rRx cR aW",
    "rRx kR wWx rRx cR kW", "wWx rRx kR rRx cR aW", "iWx kR rRx cR kW",
    // a write in between that commits, or is the reader's own, does not cleanse
    "wWx wTx cT rRx cR aW", "iWx wTx cT rRx cR kW", "wWx iTx cT rRx cR", "wWx wTx rRx cT cR kW",
    "wWx wTx cT rRx cR", "iWx wTx iTx cT rRx aW cR", "wWx wTx cT wRx rRx kW cR", "wWx wTx cT rRx kW cW cR",
    "wWx wRx rRx cR aW", "iWx wRx rRx cR kW", "wWx iRx rRx kW cR", "iWx wRx rRx cR", "wWx wRx kR rRx cR",
    // several writers: the latest that counts
    "wVx wWx rRx cR kV aW", "iVx wWx rRx aW kV cR", "wVx iWx rRx cR", "wSx iVx wWx rRx kW aV kS cR",
    "wWx wVx kV rRx cR kW", "iWx wVx aV rRx cR", "wWx wVx rRx cV cR aW", "wWx iVx wWx rRx cR kV kW",
    "wWx wVy rRx aV aW cR", "wWx iWx rWx rRx cR kW",
    // several reads: the first that counts
    "wWx rRx rSx cS cR kW", "wWx rRx rRx cR aW", "wWx rRx wVx rSx cS cR aV aW", "wVy wWx rRx rSy cS cR kV",
    "wWx rSx rRx kS cR kW cS", "iWx rSx rRx aS cR aW", "wWx rSx rRx cR", "wWx iSx rRx cS cR kW",
    "wVx kV rSx wWx rRx cR cS aW", "wVx rSx wWx cV rRx cS cR kW", "rSx wWx rRx wSx cR cS",
    // knotted too, beside it and with the reader in the knot
    "rSy wTy rTz wSz wWx rRx cS cT kW cR", "wWx rRx rRy wTy wTz wRz cT cR aW", "rRx iTx wWx rRx cT cR",
];

/// Spots that come near it and are not.
#[rustfmt::skip]
pub const NEAR: &[&str] = &[
    // the writer's run ends before the read, whatever its job does later
    "wWx kW rRx cR", "iWx kW rRx cR", "wWx aW rRx cR", "iWx aW rRx cR", "wWx kW rRx cW cR", "wWx kW kW rRx cR",
    "iWx kW rWx rRx cR aW", "wWx kW wWy rRx cR aW", "wWx kW wWx cW rRx cR", "wWx iRx kW rRx cR",
    "wWx wVx kV aW rRx cR", "wWx iVx aV kW rRx cR cW", "wWx rSx kW rRx cR kS",
    // the writer commits
    "wWx rRx cW cR", "iWx rRx cW cR", "wWx rRx cR cW", "iWx rRx cR cW", "wWx cW rRx cR", "wWx kW wWx rRx cW cR",
    "wVx wWx kV rRx cW cR",
    // it is the reader's own
    "wRx kR rRx cR", "iRx kR rRx cR", "wRx rRx kR rRx cR", "wRx kR iRx rRx cR", "wRx kR kR rRx cR",
    // an increment or a write stands in place of the read
    "wWx iRx kW cR", "iWx iRx aW cR", "iWx iRx cR", "wWx wRx cR kW", "iWx wRx cR aW", "wWx wRx cR",
    // the reader's run is sent back, gives up or has no end
    "wWx rRx kR kW cR", "iWx rRx kR cR aW", "wWx rRx aR kW", "iWx rRx kW aR", "wWx rRx kW", "iWx rRx aW", "wWx rRx",
    "wWx rRx kR kW rRx cR", "wWx rRx kR iRx cR",
    // the read stands before the write
    "rRx wWx kW cR", "rRx iWx kW cR", "rRx wWx aW cR", "rRx iWx cR aW", "rRx wWx cR", "kW rRx wWx cR kW",
    // another cell
    "wWx rRy kW cR", "iWx rRy aW cR", "wWx rRy cR", "iWy kW wWx rRy cR aW", "wWx wVy aV rRy kW cR",
    // the other only reads
    "rWx rRx kW cR", "rWx rRx aW cR", "rWx rRx cR", "wWx kW rWx rRx kW cR",
];

/// What is done about dirt in a made history: it stays as it is, or is mended; with spots in it
/// that come near, or of which one at least is dirty.
#[derive(Clone, Copy, PartialEq)]
pub enum Dirt {
    AsMade,
    Mended,
    Near,
    Dirty,
}

pub fn some_dirt(chance: &mut Chance) -> Dirt {
    use Dirt::*;
    chance.of(&[AsMade, AsMade, Mended, Mended, Mended, Near, Near, Near, Dirty, Dirty, Dirty, Dirty])
}

/// A history of so many lines over one that `body` makes.
pub fn with_dirt(
    chance: &mut Chance,
    dirt: Dirt,
    count: usize,
    body: impl FnOnce(&mut Chance, usize) -> Vec<Line>,
) -> Vec<Line> {
    let mut spots = some_spots(chance, dirt);
    let lines = |spots: &[&str]| spots.iter().map(|spot| spot.split(' ').count()).sum::<usize>();
    while lines(&spots) > count {
        spots.pop();
    }
    let mut events = body(chance, count - lines(&spots));
    let kept = put_spots(chance, &mut events, &spots);
    while events.len() < count {
        // a `k` before all else does no harm
        events.insert(0, Line { letter: SENT_BACK, job: chance.between(1, HISTORY_JOBS) as u32, cell: 0 });
    }
    if matches!(dirt, Dirt::Mended | Dirt::Near) || dirt == Dirt::Dirty && chance.percent(70) {
        mend(chance, &mut events, &kept);
    }
    events
}

/// Dirty spots, one or two, and then any number of near ones.
pub fn some_spots(chance: &mut Chance, dirt: Dirt) -> Vec<&'static str> {
    let (dirty, near) = match dirt {
        Dirt::AsMade | Dirt::Mended => (0, 0),
        Dirt::Near => (0, chance.between(1, 6)),
        Dirt::Dirty => (chance.of(&[1, 1, 2]), chance.of(&[0, 0, 1, 3])),
    };
    let mut spots: Vec<&str> = (0..dirty).map(|_| chance.of(DIRTY)).collect();
    spots.extend((0..near).map(|_| chance.of(NEAR)));
    spots
}

/// One spot alone.
pub fn bare_spot(chance: &mut Chance, spots: &[&str]) -> Vec<Line> {
    let mut events = Vec::new();
    let spot = chance.of(spots);
    put_spots(chance, &mut events, &[spot]);
    events
}

/// Puts spots into a history, each with jobs and cells that no other spot has, and jobs that the history
/// has not, as long as there are any; tells the jobs.
pub fn put_spots(chance: &mut Chance, events: &mut Vec<Line>, spots: &[&str]) -> Vec<u32> {
    let mut jobs: Vec<u32> = (1..=HISTORY_JOBS as u32).collect();
    jobs.retain(|&job| events.iter().all(|event| event.job != job));
    chance.shuffle(&mut jobs);
    if chance.percent(40) {
        jobs.sort_by_key(|&job| job == 1 || job == 255);
    }
    let mut cells: Vec<u32> = (0..CELLS as u32).collect();
    chance.shuffle(&mut cells);
    if chance.percent(30) {
        cells.sort_by_key(|&cell| events.iter().any(|event| has_cell(event.letter) && event.cell == cell));
    }
    if chance.percent(40) {
        cells.sort_by_key(|&cell| cell == 0 || cell == 63);
    }
    let mut taken = Vec::new();
    for spot in spots {
        if let Some(lines) = spot_lines(spot, &mut jobs, &mut cells) {
            taken.extend(lines.iter().map(|line| line.job));
            put_spread(chance, events, &lines);
        }
    }
    taken
}

/// The lines of a spot, with jobs and cells from the ends of the lists; None if they do not suffice.
pub fn spot_lines(spot: &str, jobs: &mut Vec<u32>, cells: &mut Vec<u32>) -> Option<Vec<Line>> {
    let mut job_of = [0; 128];
    for role in b"WRVST".iter().filter(|&&role| spot.as_bytes().contains(&role)) {
        job_of[usize::from(*role)] = jobs.pop()?;
    }
    let mut cell_of = [0; 128];
    for name in b"xyz".iter().filter(|&&name| spot.as_bytes().contains(&name)) {
        cell_of[usize::from(*name)] = cells.pop()?;
    }
    let line = |word: &[u8]| Line {
        letter: word[0],
        job: job_of[usize::from(word[1])],
        cell: word.get(2).map_or(0, |&name| cell_of[usize::from(name)]),
    };
    Some(spot.split(' ').map(|word| line(word.as_bytes())).collect())
}

/// Puts lines into a history in their order: at one place, near each other, anywhere, or, most often in
/// a long history, some before all its lines and the rest after them.
pub fn put_spread(chance: &mut Chance, events: &mut Vec<Line>, lines: &[Line]) {
    let last = events.len();
    let low = chance.below(last + 1);
    let low = chance.of(&[low, low, low, low, 0, last]);
    let way = chance.below(if last < 1_000 { 6 } else { 9 });
    let before = if chance.percent(50) { 1 } else { chance.between(1, lines.len() - 1) };
    let mut places = Vec::new();
    for number in 0..lines.len() {
        places.push(match way {
            0 | 1 => low,
            2 | 3 => chance.between(low, (low + 12).min(last)),
            4 => chance.between(0, last),
            _ if number < before => 0,
            _ => last,
        });
    }
    places.sort();
    for (&line, place) in lines.iter().zip(places).rev() {
        events.insert(place, line);
    }
}

/// Mends every dirty read, so that none is left but within spots: jobs that are `kept` keep their lines.
/// The edges of the committed part stay, and where a read becomes a write there may be more.
pub fn mend(chance: &mut Chance, events: &mut [Line], kept: &[u32]) {
    let mut ends = run_ends(events);
    for read in 0..events.len() {
        while let Some(write) = dirty_write(events, &ends, read) {
            let keeps = |at: usize| kept.contains(&events[at].job);
            let (read_stays, write_stays) = (keeps(read), keeps(write));
            if read_stays && write_stays {
                break;
            } else if write_stays || !read_stays && chance.percent(15) {
                events[read].letter = WRITE;
            } else if chance.percent(40) || !end_run(chance, events, &mut ends, write, read) {
                events[write].letter = READ;
            }
        }
    }
}

/// Sends a run back that does not commit, between its write and another's read of it, by a `k` in place of
/// one of its lines there, if it has any.
pub fn end_run(
    chance: &mut Chance,
    events: &mut [Line],
    ends: &mut [Option<usize>],
    write: usize,
    read: usize,
) -> bool {
    let (job, end) = (events[write].job, ends[write]);
    let between: Vec<usize> = (write + 1..read).filter(|&at| events[at].job == job).collect();
    if between.is_empty() {
        return false;
    }
    let at = chance.of(&between);
    events[at] = Line { letter: SENT_BACK, job, cell: 0 };
    for place in 0..=at {
        if events[place].job == job && ends[place] == end {
            ends[place] = Some(at);
        }
    }
    true
}
