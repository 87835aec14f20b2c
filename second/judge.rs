//! The judge: a history text to an order, a knot, a dirty read or a refusal.

use crate::lines::read_history;
use crate::words::*;

/// 01, The judge's rules: orderly and knot with the count of places filled, or the first
/// faulty line: its number, the refusal and the line as it stands, without its newline.
/// 02, No. 2: or the two jobs of the first dirty read. 02, No. 5: refusal 9, and no other, has the field at
/// fault.
#[derive(PartialEq, Debug)]
pub enum Verdict<'a> {
    Orderly(usize),
    Knot(usize),
    Dirty { reader: u8, writer: u8 },
    No { line: usize, refusal: u8, field: Option<u8>, text: &'a [u8] },
}

/// What the judge keeps of a history: all its lines, the actions of runs not sent back, in
/// order, and for each job whether it has committed or given up.
pub struct History {
    pub lines: Vec<Line>,
    pub actions: Vec<Line>,
    pub committed: [bool; HISTORY_JOBS + 1],
    pub ended: [bool; HISTORY_JOBS + 1],
}

impl History {
    pub fn empty() -> History {
        let no_job = [false; HISTORY_JOBS + 1];
        History { lines: Vec::new(), actions: Vec::new(), committed: no_job, ended: no_job }
    }

    /// 01, The judge's rules: the actions after the last `k` count.
    pub fn take(&mut self, event: Line) {
        self.lines.push(event);
        match event.letter {
            SENT_BACK => self.actions.retain(|action| action.job != event.job),
            COMMIT => self.committed[event.job as usize] = true,
            GIVE_UP => {}
            _ => self.actions.push(event),
        }
        self.ended[event.job as usize] |= matches!(event.letter, COMMIT | GIVE_UP);
    }
}

/// 01, Refusals by number and The judge's rules: the whole judge. 02, No. 2: "Dirty is told
/// before orderly or knot", and "the two stand in the first two places of the buffer".
pub fn judge<'a>(text: &'a [u8], order: &mut [u8]) -> Verdict<'a> {
    if order.len() < HISTORY_JOBS {
        return Verdict::No { line: 0, refusal: BUFFER_SHORT, field: None, text: b"" };
    }
    let mut history = History::empty();
    for (before, line) in text.split_inclusive(|&byte| byte == b'\n').enumerate() {
        match judge_line(&history, before + 1, line) {
            Ok(event) => history.take(event),
            Err((refusal, field)) => {
                let text = line.strip_suffix(b"\n").unwrap_or(line);
                return Verdict::No { line: before + 1, refusal, field, text };
            }
        }
    }
    if let Some((read, write)) = first_dirty(&history.lines) {
        let (reader, writer) = (history.lines[read].job as u8, history.lines[write].job as u8);
        order[..2].copy_from_slice(&[reader, writer]);
        return Verdict::Dirty { reader, writer };
    }
    decide(&history, order)
}

/// 01, Refusals by number: "on one line 11, 9, 12, 2, 13"; with 9 the field at fault (02, No. 5).
pub fn judge_line(history: &History, number: usize, line: &[u8]) -> Result<Line, (u8, Option<u8>)> {
    if number > HISTORY_LINES {
        return Err((LINE_TOO_MANY, None));
    }
    let event = read_history(line).map_err(|field| (BAD_LINE, Some(field)))?;
    if event.job < 1 || event.job as usize > HISTORY_JOBS {
        return Err((JOB_OUTSIDE, None));
    }
    if has_cell(event.letter) && event.cell as usize >= CELLS {
        return Err((NO_SUCH_CELL, None));
    }
    if history.ended[event.job as usize] {
        return Err((JOB_ENDED, None));
    }
    Ok(event)
}

/// 02, No. 2: for each line the place where its run ends: its job's next `k`, `a` or `c`, and
/// None where that is the end of the text.
pub fn run_ends(lines: &[Line]) -> Vec<Option<usize>> {
    let ends = |line: &Line, job: u32| line.job == job && matches!(line.letter, SENT_BACK | GIVE_UP | COMMIT);
    (0..lines.len()).map(|at| (at..lines.len()).find(|&end| ends(&lines[end], lines[at].job))).collect()
}

/// 02, No. 2: the latest write or increment that makes the line at `read` a dirty read: "a
/// committed run's read of a cell stands after a write or increment of that cell by another
/// job's run that does not commit, and before that run's end if it has one".
pub fn dirty_write(lines: &[Line], ends: &[Option<usize>], read: usize) -> Option<usize> {
    let commits = |at: usize| ends[at].is_some_and(|end| lines[end].letter == COMMIT);
    if lines[read].letter != READ || !commits(read) {
        return None;
    }
    (0..read).rev().find(|&write| {
        matches!(lines[write].letter, WRITE | INCREMENT)
            && lines[write].cell == lines[read].cell
            && lines[write].job != lines[read].job
            && !commits(write)
            && ends[write].is_none_or(|end| read < end)
    })
}

/// 02, No. 2: the first dirty read in the order of the text, and its latest such write or
/// increment, by their places.
pub fn first_dirty(lines: &[Line]) -> Option<(usize, usize)> {
    let ends = run_ends(lines);
    (0..lines.len()).find_map(|read| Some((read, dirty_write(lines, &ends, read)?)))
}

/// `edges[from][to]`.
pub type Edges = Vec<[bool; HISTORY_JOBS + 1]>;

/// 01, The judge's rules: in the committed part, an earlier action gives an edge from its
/// job to that of a later, conflicting one.
pub fn edges_of(history: &History) -> Edges {
    let mut cells: Vec<Vec<Line>> = vec![Vec::new(); CELLS];
    for action in &history.actions {
        if history.committed[action.job as usize] {
            cells[action.cell as usize].push(*action);
        }
    }
    let mut edges = vec![[false; HISTORY_JOBS + 1]; HISTORY_JOBS + 1];
    for actions in &cells {
        for (place, later) in actions.iter().enumerate() {
            for earlier in &actions[..place] {
                if earlier.job != later.job && conflict(earlier.letter, later.letter) {
                    edges[earlier.job as usize][later.job as usize] = true;
                }
            }
        }
    }
    edges
}

/// 01, The judge's rules: take away, again and again, the smallest job without a remaining
/// predecessor. All gone: that is the order. Otherwise what remains holds a knot.
pub fn decide<'a>(history: &History, order: &mut [u8]) -> Verdict<'a> {
    let edges = edges_of(history);
    let mut remaining = history.committed;
    let mut predecessors = [0usize; HISTORY_JOBS + 1];
    for row in &edges {
        for job in 1..=HISTORY_JOBS {
            predecessors[job] += usize::from(row[job]);
        }
    }
    let mut taken = Vec::new();
    while let Some(job) = (1..=HISTORY_JOBS).find(|&job| remaining[job] && predecessors[job] == 0) {
        remaining[job] = false;
        taken.push(job as u8);
        for later in 1..=HISTORY_JOBS {
            predecessors[later] -= usize::from(edges[job][later]);
        }
    }
    if remaining.contains(&true) {
        let cycle = knot_of(&edges, &remaining);
        order[..cycle.len()].copy_from_slice(&cycle);
        Verdict::Knot(cycle.len())
    } else {
        order[..taken.len()].copy_from_slice(&taken);
        Verdict::Orderly(taken.len())
    }
}

/// 01, The judge's rules, "Knot": from the smallest remaining job to the smallest remaining
/// predecessor until a job comes again; the cycle along its edges, from its smallest.
pub fn knot_of(edges: &Edges, remaining: &[bool]) -> Vec<u8> {
    let smallest =
        |may: &dyn Fn(usize) -> bool| (1..=HISTORY_JOBS).find(|&job| remaining[job] && may(job)).unwrap();
    let mut walk = vec![smallest(&|_| true)];
    loop {
        let here = walk[walk.len() - 1];
        let before = smallest(&|job| edges[job][here]);
        if let Some(place) = walk.iter().position(|&job| job == before) {
            let mut cycle: Vec<u8> = walk[place..].iter().rev().map(|&job| job as u8).collect();
            let first = (0..cycle.len()).min_by_key(|&at| cycle[at]).unwrap();
            cycle.rotate_left(first);
            return cycle;
        }
        walk.push(before);
    }
}
