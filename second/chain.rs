//! The chain of a job (02, No. 3): who is in whose way, up to a job that runs; the question after it,
//! and what is printed of it.

use crate::desk::{Cell, Desk, Status};
use crate::lines::{put_field, put_number};
use crate::words::*;

impl Desk {
    /// 02, No. 3: "the next is the youngest among the other holders of its cell and the jobs ahead of it
    /// there". Its cell is the one in whose queue it stands, and a promotion's own hold is left out.
    pub fn next_in_chain(&self, job: u32) -> Option<u32> {
        let its = |cell: &&Cell| cell.queue.iter().any(|waiter| waiter.job == job);
        let cell = self.cells.iter().find(its)?;
        let others = cell.holders.iter().map(|holder| holder.job).filter(|&holder| holder != job);
        let ahead = cell.queue.iter().map(|waiter| waiter.job).take_while(|&waiter| waiter != job);
        others.chain(ahead).max()
    }

    /// 02, No. 3: the chain of a live job, "and so on until a job that is running"; of a running job
    /// that is the job itself.
    pub fn chain(&self, job: u32) -> Vec<u32> {
        let mut chain = vec![job];
        let mut last = job;
        while self.status(last) != Some(Status::Running) {
            last = self.next_in_chain(last).expect("somebody is in a waiter's way");
            chain.push(last);
        }
        chain
    }
}

/// 02, No. 3: the question after a job's chain. It tells how many jobs the chain has, and they fill the
/// first places of the list. "Refusals: 3, then 5; then 18", which leave the whole list.
pub fn ask_chain(desk: &Desk, job: u32, list: &mut [u32]) -> Result<usize, u8> {
    match desk.status(job) {
        None => return Err(JOB_NOT_OPEN),
        Some(Status::SentBack) => return Err(JOB_SENT_BACK),
        Some(Status::Running | Status::Waiting) => {}
    }
    if list.len() < PLACES {
        return Err(LIST_SHORT);
    }
    let chain = desk.chain(job);
    list[..chain.len()].copy_from_slice(&chain);
    Ok(chain.len())
}

/// What the program `chain` prints: a line for each waiting job, the oldest first, with the jobs of its
/// chain and a tab between.
pub fn put_chains(out: &mut Vec<u8>, desk: &Desk) {
    for waiting in desk.jobs.iter().filter(|job| job.status == Status::Waiting) {
        put_number(out, u64::from(waiting.number));
        for &job in &desk.chain(waiting.number)[1..] {
            put_field(out, u64::from(job));
        }
        out.push(b'\n');
    }
}

/// A question among steps by numbers, `256 job places`: 256 is no byte, so no kind of request.
pub const QUESTION: u16 = 256;

/// The most places that a question lends, and what the first of them holds before; the next has one more,
/// and so on.
pub const QUESTION_PLACES: u32 = 64;
pub const UNTOUCHED: u32 = 4_000_000_000;

/// A question's answer: `chain` and how many, or `no` and the refusal; then every place as it is now.
pub fn put_question(out: &mut Vec<u8>, desk: &Desk, job: u32, places: u32) {
    let mut list: Vec<u32> = (0..places.min(QUESTION_PLACES)).map(|place| UNTOUCHED + place).collect();
    let (word, number) = match ask_chain(desk, job, &mut list) {
        Ok(count) => ("chain", count as u64),
        Err(refusal) => ("no", u64::from(refusal)),
    };
    out.extend_from_slice(word.as_bytes());
    put_field(out, number);
    for place in list {
        put_field(out, u64::from(place));
    }
    out.push(b'\n');
}
