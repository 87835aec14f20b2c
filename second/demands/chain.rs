//! The chain of 02, No. 3, held against a random run of the desk by brute force. Who is in whose way is
//! taken from `in_the_way`, and not from the chain's own search.

use super::{in_the_way, numbers_with, queues_of};
use crate::chain::ask_chain;
use crate::desk::{Cell, Desk, Status};

/// A question after a chain: the list that was lent, the answer, and the list as it is then.
pub struct Asked<'a> {
    pub desk: &'a Desk,
    pub job: u32,
    pub before: &'a [u32],
    pub answer: Result<usize, u8>,
    pub after: &'a [u32],
}

/// All statements, after one more step: for every open job and some that are not, and lists of several
/// lengths.
pub fn chains(desk: &Desk) -> Result<(), String> {
    youngest_holds(desk)?;
    let open = desk.jobs.iter().map(|job| job.number);
    for job in open.chain(strangers(desk)) {
        for places in [0, 1, 31, 32, 33, 64] {
            let before: Vec<u32> = (0..places).map(|place| 3_000_000_000 + place).collect();
            let mut after = before.clone();
            let answer = ask_chain(desk, job, &mut after);
            question(&Asked { desk, job, before: &before, answer, after: &after })?;
        }
    }
    Ok(())
}

/// Some numbers that are not open: 0, the last one, the next one and the one after it, and those closed last.
pub fn strangers(desk: &Desk) -> Vec<u32> {
    let closed = |job: &u32| desk.jobs.iter().all(|open| open.number != *job);
    let past = (1..=40u64).filter_map(|back| desk.next.checked_sub(back)).map(|job| job as u32);
    let past: Vec<u32> = past.filter(closed).take(3).collect();
    let next = desk.next as u32;
    let others = [0, u32::MAX, next, next.wrapping_add(1)];
    others.into_iter().filter(closed).chain(past).collect()
}

/// One question.
pub fn question(asked: &Asked) -> Result<(), String> {
    refused_when_due(asked)?;
    let count = asked.answer.unwrap_or(0);
    demand!(count <= 32, "chain: {count} jobs in the chain of {}", asked.job);
    demand!(
        asked.after.len() == asked.before.len() && asked.after[count..] == asked.before[count..],
        "chain: the list lent for {} and left by {:?} is {:?}",
        asked.job,
        asked.answer,
        asked.after
    );
    if asked.answer.is_ok() {
        from_the_job_to_a_running_one(asked.desk, asked.job, &asked.after[..count])?;
        by_the_youngest_in_the_way(asked.desk, &asked.after[..count])?;
        rising(&asked.after[..count])?;
    }
    Ok(())
}

/// 3, 5, 18: all rows looked at, the first that applies counts; and nothing else refuses.
pub fn refused_when_due(asked: &Asked) -> Result<(), String> {
    let open = asked.desk.jobs.iter().any(|open| open.number == asked.job);
    let sent_back = numbers_with(asked.desk, Status::SentBack).contains(&asked.job);
    let rows = [(3, asked.job == 0 || !open), (5, sent_back), (18, asked.before.len() < 32)];
    let wanted = rows.iter().find(|row| row.1).map(|row| row.0);
    let got = asked.answer.err();
    demand!(
        got == wanted,
        "chain: the table says {wanted:?} to {} and {} places, the answer is {:?}",
        asked.job,
        asked.before.len(),
        asked.answer
    );
    Ok(())
}

/// It begins with the job asked about and ends with a running one; all but that one wait.
pub fn from_the_job_to_a_running_one(desk: &Desk, job: u32, chain: &[u32]) -> Result<(), String> {
    demand!(chain.first() == Some(&job), "chain: the chain of {job} is {chain:?}");
    let (last, before) = chain.split_last().expect("the job itself");
    let runs = desk.status(*last) == Some(Status::Running) && queues_of(desk, *last) == 0;
    demand!(runs, "chain: {chain:?} ends with {last}, which does not run");
    for job in before {
        let waits = desk.status(*job) == Some(Status::Waiting) && queues_of(desk, *job) == 1;
        demand!(waits, "chain: {job} does not wait and is not the last of {chain:?}");
    }
    Ok(())
}

/// The cell for which a job waits.
pub fn cell_of(desk: &Desk, job: u32) -> Option<&Cell> {
    desk.cells.iter().find(|cell| cell.queue.iter().any(|waiter| waiter.job == job))
}

/// Each next is in the way of the one before it, and nobody in its way is younger.
pub fn by_the_youngest_in_the_way(desk: &Desk, chain: &[u32]) -> Result<(), String> {
    for pair in chain.windows(2) {
        let way = cell_of(desk, pair[0]).map(|cell| in_the_way(cell, pair[0])).unwrap_or_default();
        demand!(
            way.contains(&pair[1]),
            "chain: {} comes after {}, in whose way are {way:?}",
            pair[1],
            pair[0]
        );
        demand!(
            way.iter().all(|&other| other <= pair[1]),
            "chain: {} comes after {}, and is not the youngest of {way:?}",
            pair[1],
            pair[0]
        );
    }
    Ok(())
}

/// Numbers rise along the chain; so no job comes twice.
pub fn rising(chain: &[u32]) -> Result<(), String> {
    demand!(chain.windows(2).all(|pair| pair[0] < pair[1]), "chain: {chain:?} does not rise");
    for (place, job) in chain.iter().enumerate() {
        demand!(!chain[..place].contains(job), "chain: {job} comes twice in {chain:?}");
    }
    Ok(())
}

/// The youngest in a waiter's way is always a holder of its cell.
pub fn youngest_holds(desk: &Desk) -> Result<(), String> {
    for cell in &desk.cells {
        for waiter in &cell.queue {
            let way = in_the_way(cell, waiter.job);
            let youngest = way.iter().max();
            let holds = youngest.is_some_and(|&job| cell.held_by(job).is_some());
            demand!(holds, "chain: of {way:?}, in the way of {}, the youngest holds nothing", waiter.job);
        }
    }
    Ok(())
}
