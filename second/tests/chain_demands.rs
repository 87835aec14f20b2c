//! What is demanded of chains (02, No. 3): each statement is able to fail.

use super::chain::desk_after;
use crate::chain::ask_chain;
use crate::demands::chain::*;
use crate::demands::demands;
use crate::desk::{Desk, Status};

/// Job 1 waits for cell 1, held by 2 and 3 in S; 3 waits for cell 2, held by 4, which runs; 2 runs, 5 was
/// sent back, and 6 is closed.
fn desk() -> Desk {
    desk_after(6, "r 2 1, r 3 1, w 4 2, w 3 2, w 1 1, r 5 2, a 6")
}

/// The question after a job's chain with so many places, answered with these jobs in the list.
fn told(job: u32, places: u32, answer: Result<usize, u8>, first: &[u32]) -> Result<(), String> {
    let before: Vec<u32> = (100..100 + places).collect();
    let mut after = before.clone();
    after[..first.len()].copy_from_slice(first);
    question(&Asked { desk: &desk(), job, before: &before, answer, after: &after })
}

fn fails(found: Result<(), String>, wanted: &str) {
    let text = found.expect_err("a violation to be seen");
    assert!(text.contains(wanted), "{text}");
}

#[test]
fn chains_are_looked_at() {
    assert_eq!(chains(&desk()), Ok(()));
    let strangers = strangers(&desk());
    assert!([0, u32::MAX, 7, 8, 6].iter().all(|job| strangers.contains(job)), "{strangers:?}");
    assert!((1..=5).all(|job| !strangers.contains(&job)));
    for seed in (0..60).filter(|seed| seed % 3 == 2) {
        assert_eq!(demands(seed, 400), Ok(()), "seed {seed}");
    }
}

#[test]
fn right_answers_hold() {
    assert_eq!(told(1, 32, Ok(3), &[1, 3, 4]), Ok(()));
    assert_eq!(told(3, 64, Ok(2), &[3, 4]), Ok(()));
    assert_eq!(told(2, 33, Ok(1), &[2]), Ok(()));
    for (job, places, refusal) in
        [(0, 0, 3), (6, 32, 3), (9, 31, 3), (5, 0, 5), (5, 32, 5), (1, 31, 18), (4, 0, 18)]
    {
        assert_eq!(told(job, places, Err(refusal), &[]), Ok(()));
    }
}

#[test]
fn refusals_can_fail() {
    fails(told(1, 32, Err(4), &[]), "the table says None to 1 and 32 places, the answer is Err(4)");
    fails(told(4, 31, Ok(1), &[4]), "the table says Some(18)");
    fails(told(2, 32, Err(18), &[]), "the table says None");
    fails(told(6, 31, Err(18), &[]), "the table says Some(3)");
    fails(told(5, 31, Err(18), &[]), "the table says Some(5)");
    fails(told(5, 32, Ok(1), &[5]), "the table says Some(5)");
    fails(told(5, 32, Err(3), &[]), "the table says Some(5)");
    fails(told(0, 32, Ok(0), &[]), "the table says Some(3)");
}

#[test]
fn the_list_can_fail() {
    fails(told(1, 32, Ok(3), &[1, 3, 4, 0]), "the list lent for 1");
    fails(told(1, 31, Err(18), &[1, 3, 4]), "the list lent for 1");
    fails(told(6, 32, Err(3), &[0]), "the list lent for 6");
    fails(told(5, 32, Err(5), &[5]), "the list lent for 5");
    fails(told(1, 64, Ok(33), &[1, 3, 4]), "33 jobs in the chain of 1");
    let before = [7; 33];
    let short = Asked { desk: &desk(), job: 2, before: &before, answer: Ok(1), after: &[2; 1] };
    fails(question(&short), "the list lent for 2");
}

#[test]
fn the_chain_itself_can_fail() {
    fails(told(1, 32, Ok(0), &[]), "the chain of 1 is []");
    fails(told(1, 32, Ok(2), &[3, 4]), "the chain of 1 is [3, 4]");
    fails(told(4, 32, Ok(0), &[]), "the chain of 4 is []");
    fails(told(1, 32, Ok(1), &[1]), "[1] ends with 1, which does not run");
    fails(told(1, 32, Ok(2), &[1, 3]), "[1, 3] ends with 3, which does not run");
    fails(told(2, 32, Ok(2), &[2, 4]), "2 does not wait and is not the last");
    // 2 holds the cell too and runs, but is older than 3; 4 is in nobody's way there.
    fails(told(1, 32, Ok(2), &[1, 2]), "2 comes after 1, and is not the youngest of {2, 3}");
    fails(told(1, 32, Ok(2), &[1, 4]), "4 comes after 1, in whose way are {2, 3}");
    fails(told(1, 32, Ok(4), &[1, 3, 3, 4]), "3 comes after 3, in whose way are {4}");
    fails(rising(&[1, 4, 3]), "[1, 4, 3] does not rise");
    fails(rising(&[1, 3, 3]), "[1, 3, 3] does not rise");
}

#[test]
fn the_theorem_can_fail() {
    let mut desk = desk_after(3, "r 3 5, w 2 5, r 1 5");
    assert_eq!(youngest_holds(&desk), Ok(()));
    desk.cells[5].holders[0].job = 1;
    fails(youngest_holds(&desk), "the youngest holds nothing");
    // A desk that is not one: 2 holds, 3 waits first, and 1 behind it.
    desk.cells[5].holders[0].job = 2;
    desk.cells[5].queue[0].job = 3;
    desk.jobs[2].status = Status::Waiting;
    desk.jobs[1].status = Status::Running;
    fails(chains(&desk), "of {2, 3}, in the way of 1, the youngest holds nothing");
    let mut list = [0; 32];
    assert_eq!(ask_chain(&desk, 1, &mut list), Ok(3));
    assert_eq!(list[..4], [1, 3, 2, 0]);
    fails(rising(&list[..3]), "does not rise");
}
