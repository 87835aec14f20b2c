//! The demands: each statement is able to fail.

use super::{printed, shown, text};
use crate::demands::update::{nobody_beside, one_writer, promotions, records, Holds};
use crate::demands::*;
use crate::desk::{Answer, Desk, Holder, Job, Outcome, Status, Waiter};
use crate::lines::{read_line, read_request};
use crate::words::*;
use std::collections::BTreeSet;

/// A desk after some steps, given as `kind job cell` with the kind's letter.
fn desk_after(steps: &str) -> Desk {
    let mut desk = Desk::start(1).unwrap();
    for line in text(steps).split_inclusive(|&byte| byte == b'\n') {
        desk.step(read_request(line).expect("a good line"));
    }
    desk
}

fn line(words: &str) -> Line {
    read_line(&text(words), b"bcatrwiku").expect("a good line")
}

fn fails(found: Result<(), String>, letter: &str) {
    let text = found.expect_err("a violation to be seen");
    assert!(text.starts_with(letter), "{text}");
}

/// Watches the steps, all but the last as they are, the last as `change` leaves it.
fn watched(steps: &str, change: impl Fn(&mut Outcome, &mut Desk)) -> Result<(), String> {
    let mut watch = Watch::default();
    let mut desk = Desk::start(1).unwrap();
    let steps = text(steps);
    let steps: Vec<&[u8]> = steps.split_inclusive(|&byte| byte == b'\n').collect();
    for (number, step) in steps.iter().enumerate() {
        let asked = read_request(step).expect("a good line");
        let before = desk.clone();
        let mut outcome = desk.step(asked);
        if number + 1 == steps.len() {
            change(&mut outcome, &mut desk);
        }
        let seen = Seen { before: &before, asked, outcome: &outcome, after: &desk };
        watch.see(&seen).map_err(|text| {
            if number + 1 == steps.len() {
                text
            } else {
                format!("early: {text}")
            }
        })?;
    }
    watch.whole_history()
}

#[test]
fn demands_hold_for_the_desk() {
    for seed in 0..24 {
        assert_eq!(demands(seed, 700), Ok(()), "seed {seed}");
    }
    let (output, status) = printed(&["demands", "3", "200"], b"");
    assert_eq!((shown(&output).as_str(), status), ("demands: 3 ok\n", 0));
}

#[test]
fn demand_a_can_fail() {
    let mut desk = desk_after("b, b, w 2 5, r 1 5");
    assert_eq!(somebody_runs(&desk), Ok(()));
    desk.jobs[1].status = Status::SentBack;
    fails(somebody_runs(&desk), "a:");
    let mut desk = desk_after("b, b, b, w 3 5, r 2 5");
    desk.jobs[2].status = Status::SentBack;
    assert_eq!(desk.jobs[0].status, Status::Running);
    fails(somebody_runs(&desk), "a:");
}

#[test]
fn demand_b_can_fail() {
    let steps = "b, b, w 2 5, r 1 5, c 2";
    assert_eq!(watched(steps, |_, _| {}), Ok(()));
    let forgets = |outcome: &mut Outcome, desk: &mut Desk| {
        outcome.wakes.clear();
        desk.jobs[0].status = Status::Waiting;
        desk.cells[5].holders.clear();
        desk.cells[5].queue.push_back(Waiter { job: 1, letter: READ, mode: Mode::S });
    };
    fails(watched(steps, forgets), "g: nothing blocks");
    let mut watch = Watch::default();
    let before = desk_after("b, b, w 2 5, r 1 5");
    watch.waits.insert(1, Wait { asked: line("r 1 5"), mode: Mode::S, runs: BTreeSet::from([2]) });
    let (mut after, asked) = (before.clone(), line("c 2"));
    let mut outcome = after.step(asked);
    forgets(&mut outcome, &mut after);
    let seen = Seen { before: &before, asked, outcome: &outcome, after: &after };
    fails(watch.nobody_forgotten(&seen), "b: 1 still waits");
    fails(watched(steps, |outcome, _| outcome.wakes.clear()), "f: cell 5 came to");
    let wait = Wait { asked: line("r 1 5"), mode: Mode::S, runs: BTreeSet::new() };
    let good = Outcome { answer: Answer::Go(2), wakes: vec![line("r 1 5")] };
    let mut desk = desk_after("b, b, r 1 5");
    let seen = Seen { before: &before, asked, outcome: &good, after: &desk };
    assert_eq!(granted_at_last(&seen, 1, &wait), Ok(()));
    let seen = Seen { outcome: &Outcome::alone(Answer::Go(2)), ..seen };
    fails(granted_at_last(&seen, 1, &wait), "b: 1 stopped");
    let other = Outcome { answer: Answer::Go(2), wakes: vec![line("w 1 5")] };
    let seen = Seen { outcome: &other, ..seen };
    fails(granted_at_last(&seen, 1, &wait), "b: 1 stopped");
    desk.cells[5].holders[0].mode = Mode::I;
    fails(
        granted_at_last(&Seen { before: &before, asked, outcome: &good, after: &desk }, 1, &wait),
        "b: woken 1 holds",
    );
    desk.cells[5].holders[0].mode = Mode::S;
    desk.jobs[0].status = Status::SentBack;
    fails(
        granted_at_last(&Seen { before: &before, asked, outcome: &good, after: &desk }, 1, &wait),
        "b: woken 1 does not",
    );
}

#[test]
fn demand_b_counts_those_in_the_way() {
    let begun = Seen {
        before: &desk_after("b, b, w 2 5, r 1 5"),
        asked: line("b"),
        outcome: &Outcome::alone(Answer::Go(3)),
        after: &desk_after("b, b, w 2 5, r 1 5, b"),
    };
    fails(Watch::default().nobody_forgotten(&begun), "b: [1] wait, but not all");
    let before = desk_after("b");
    let mut after = desk_after("b");
    after.jobs[0].status = Status::Waiting;
    after.cells[5].queue.push_back(Waiter { job: 1, letter: WRITE, mode: Mode::X });
    let outcome = Outcome::alone(Answer::Wait(1));
    let mut note = |holders: u32| {
        after.cells[5].holders = (2..2 + holders).map(|job| Holder { job, mode: Mode::S }).collect();
        let seen = Seen { before: &before, asked: line("w 1 5"), outcome: &outcome, after: &after };
        Watch::default().note_wait(&seen, 1)
    };
    assert_eq!(note(31), Ok(()));
    fails(note(32), "b: 32 runs in the way");
    fails(note(0), "b: 1 waits with nobody");
}

#[test]
fn demand_c_can_fail() {
    fails(
        watched("b, b, w 2 5, r 1 5", |outcome, desk| {
            outcome.answer = Answer::Back(1);
            desk.cells[5].queue.clear();
            desk.jobs[0].status = Status::SentBack;
        }),
        "c: 1 was sent back",
    );
    fails(
        watched("b, b, c 2, b", |outcome, desk| {
            outcome.answer = Answer::Go(2);
            desk.jobs[1].number = 2;
        }),
        "c: begin gave 2",
    );
    fails(watched("b, b, r 2 5", |outcome, _| outcome.answer = Answer::Go(1)), "c: answer for 1");
}

#[test]
fn demand_d_can_fail() {
    let mut desk = desk_after("b, b, b, w 3 5, r 2 5, r 1 5");
    assert_eq!(older_than_in_the_way(&desk), Ok(()));
    desk.cells[5].queue.swap(0, 1);
    fails(older_than_in_the_way(&desk), "d: 2 waits");
    fails(places_and_queues(&desk), "g: the queue");
    desk.cells[5].queue.swap(0, 1);
    desk.cells[5].holders[0].job = 1;
    fails(older_than_in_the_way(&desk), "d: 2 waits");
}

#[test]
fn demand_e_can_fail() {
    let mut watch = Watch { history: ["w 2 0", "w 1 0", "c 1"].map(line).to_vec(), ..Watch::default() };
    watch.commit_order(1).unwrap();
    watch.history.push(line("c 2"));
    fails(watch.whole_history(), "e: edge");
    fails(watch.commit_order(2), "e:");
    let knot = ["w 2 0", "w 1 0", "w 1 1", "w 2 1", "c 1", "c 2"].map(line).to_vec();
    fails(Watch { history: knot, ..Watch::default() }.judged(), "e: the judge finds a knot");
    let dead = ["c 1", "r 1 0"].map(line).to_vec();
    fails(Watch { history: dead, ..Watch::default() }.judged(), "e: the judge refuses by 13");
    let lost = ["w 2 0", "k 2", "w 1 0", "c 1", "c 2"].map(line).to_vec();
    assert_eq!(Watch { history: lost, ..Watch::default() }.whole_history(), Ok(()));
}

#[test]
fn demand_f_can_fail() {
    fails(
        watched("b, b, r 1 5, r 2 5", |_, desk| desk.cells[5].holders[1].mode = Mode::I),
        "f: cell 5 held by",
    );
    fails(watched("b, b, r 1 5, r 2 6", |_, desk| desk.cells[5].holders.clear()), "f: 1 lost cell 5");
    fails(
        watched("b, b, w 1 5, r 2 6", |_, desk| desk.cells[5].holders[0].mode = Mode::S),
        "f: cell 5 came to",
    );
    fails(watched("b, w 1 5", |_, desk| desk.cells[5].holders[0].mode = Mode::S), "f: Line");
    fails(watched("b, b, r 1 5", |_, desk| desk.cells[9].hold(2, Mode::S)), "f: cell 9 came to");
    let watch = Watch { history: ["r 1 0", "w 2 1", "c 2"].map(line).to_vec(), ..Watch::default() };
    fails(watch.no_event_after_end(line("r 2 7")), "f: event of 2");
    assert_eq!(watch.no_event_after_end(line("r 1 7")), Ok(()));
    assert_eq!(watch.strict(line("w 3 1")), Ok(()));
    assert_eq!(watch.strict(line("r 3 0")), Ok(()));
    fails(watch.strict(line("w 3 0")), "f:");
    fails(watch.strict(line("i 3 0")), "f:");
}

#[test]
fn demand_f_looks_at_locks_and_records() {
    let again = |_: &mut Outcome, desk: &mut Desk| {
        let same = desk.cells[5].holders[0].clone();
        desk.cells[5].holders.push(same);
    };
    fails(watched("b, r 1 5", again), "f: 1 holds cell 5 twice");
    let dead = |_: &mut Outcome, desk: &mut Desk| desk.cells[9].hold(2, Mode::S);
    fails(watched("b, b, w 1 5, r 2 5, r 1 6", dead), "f: cell 9 held by 2, which is not live");
    let before = desk_after("b, b, w 2 5, r 1 5");
    let (mut after, asked) = (before.clone(), line("c 2"));
    let outcome = after.step(asked);
    let seen = Seen { before: &before, asked, outcome: &outcome, after: &after };
    let (commit, wake) = (line("c 2"), line("r 1 5"));
    assert_eq!(Watch::default().events(&seen, &[commit, wake]), Ok(()));
    fails(Watch::default().events(&seen, &[wake, commit]), "f: a wake's record");
    fails(Watch::default().events(&seen, &[wake]), "f: a run's end without");
}

#[test]
fn demand_g_can_fail() {
    fails(watched("b, r 1 5", |outcome, _| outcome.answer = Answer::No(2)), "g: the table says None");
    fails(watched("b, r 1 64", |outcome, _| outcome.answer = Answer::Go(1)), "g: the table says Some(2)");
    fails(watched("b, r 1 64", |_, desk| desk.next += 1), "g: a refusal changed");
    fails(
        watched("b, b, c 2", |_, desk| desk.jobs.push(Job { number: 2, status: Status::Running })),
        "g: closed 2",
    );
    fails(watched("b, r 1 5, c 1", |_, desk| desk.cells[5].hold(1, Mode::S)), "g: closed 1 still");
    fails(watched("b, b, w 1 5, r 2 5", |_, desk| drop(desk.jobs.pop())), "g: sent back 2");
    fails(
        watched("b, b, w 1 5, r 2 6, r 2 5", |_, desk| desk.cells[6].hold(2, Mode::S)),
        "g: sent back 2 still",
    );
    fails(
        watched("b, b, w 1 5, r 2 5, t 2", |_, desk| desk.jobs[1].status = Status::SentBack),
        "g: retried 2",
    );
    fails(watched("b, b, w 2 5, r 1 5", |_, desk| desk.cells[5].queue.clear()), "g: 1 is Waiting");
    fails(
        watched("b, b, w 2 5, r 1 5", |_, desk| desk.cells[6].queue = desk.cells[5].queue.clone()),
        "g: 1 is Waiting",
    );
    fails(watched("b, b, w 2 5, r 1 5", |_, desk| desk.cells[5].holders.clear()), "g: nothing blocks 1");
    let mut desk = desk_after("b");
    desk.jobs = (1..=33).map(|number| Job { number, status: Status::Running }).collect();
    fails(places_and_queues(&desk), "g: 33 open");
    desk.jobs = vec![Job { number: 4, status: Status::Running }; 2];
    fails(places_and_queues(&desk), "g: open numbers");
    desk.jobs.clear();
    desk.cells[5].queue.push_back(Waiter { job: 1, letter: WRITE, mode: Mode::X });
    fails(places_and_queues(&desk), "g: not all of [1] are open");
}

#[test]
fn demand_g_looks_at_begin_retry_and_wakes() {
    fails(
        watched("b, r 1 64", |outcome, _| outcome.wakes.push(line("r 1 5"))),
        "g: a refusal with wakes",
    );
    fails(watched("b", |_, desk| desk.jobs[0].status = Status::SentBack), "g: begun job 1 does not run");
    fails(watched("b", |_, desk| desk.cells[3].hold(1, Mode::S)), "g: begun job 1 holds");
    fails(
        watched("b, b, w 1 5, r 2 5, t 2", |_, desk| desk.cells[6].hold(2, Mode::S)),
        "g: retried 2 holds",
    );
    fails(watched("b, b, r 1 5", |outcome, _| outcome.wakes.push(line("r 2 6"))), "g: wakes, and no run");
    let steps = "b, b, b, w 3 63, w 3 0, r 1 63, r 2 0, c 3";
    assert_eq!(watched(steps, |_, _| {}), Ok(()));
    fails(watched(steps, |outcome, _| outcome.wakes.swap(0, 1)), "g: wakes not in order");
}

/// The desk sends the job back, whatever it should do.
fn send_back(job: u32) -> impl Fn(&mut Outcome, &mut Desk) {
    move |outcome, desk| {
        outcome.answer = Answer::Back(job);
        desk.set_status(job, Status::SentBack);
        outcome.wakes = desk.end_run(job);
    }
}

#[test]
fn update_locks_let_nobody_in() {
    let go = |outcome: &mut Outcome, desk: &mut Desk| {
        outcome.answer = Answer::Go(1);
        desk.set_status(1, Status::Running);
        desk.cells[5].queue.clear();
        desk.cells[5].hold(1, Mode::S);
    };
    fails(watched("b, b, u 2 5, r 1 5", go), "u: Holder { job: 1, mode: S } came to cell 5");
    let steps = "b, b, r 1 5, u 2 5, u 1 5";
    assert_eq!(watched(steps, |_, _| {}), Ok(()));
    let grow = |outcome: &mut Outcome, desk: &mut Desk| {
        go(outcome, desk);
        desk.cells[5].hold(1, Mode::U);
    };
    fails(watched(steps, grow), "f: cell 5 held by");
    let mut desk = desk_after("b, b, r 1 5, u 2 5");
    let (before, asked) = (desk.clone(), line("u 1 5"));
    desk.cells[5].hold(1, Mode::U);
    fails(one_writer(&desk), "u: [2, 1] hold U or X on cell 5");
    let outcome = Outcome::alone(Answer::Go(1));
    let seen = Seen { before: &before, asked, outcome: &outcome, after: &desk };
    fails(nobody_beside(&seen), "u: Holder { job: 1, mode: U } came to cell 5");
}

#[test]
fn update_locks_by_the_table() {
    fails(
        watched("b, r 1 5, u 1 5", |_, desk| desk.cells[5].hold(1, Mode::X)),
        "u: after Line { letter: 117, job: 1, cell: 5 } Some(X) is held",
    );
    fails(watched("b, i 1 5, u 1 5", |_, desk| desk.cells[5].hold(1, Mode::U)), "f: 1 lost cell 5");
    fails(watched("b, b, r 1 5, r 2 5, u 2 5", send_back(2)), "u: with Some(S)");
    fails(watched("b, b, b, r 2 5, u 3 5, u 2 5", send_back(2)), "u: with Some(S)");
    fails(watched("b, b, b, u 3 5, r 2 5", send_back(2)), "u: with None");
    let mut desk = desk_after("b, b, b, r 3 5, r 2 5, w 1 5, w 2 5");
    assert_eq!(promotions(&desk), Ok(()));
    desk.cells[5].queue.swap(0, 1);
    fails(promotions(&desk), "u: Waiter { job: 2, letter: 119, mode: X } waits behind");
    desk.cells[5].queue.swap(0, 1);
    desk.cells[5].queue[0].letter = READ;
    fails(promotions(&desk), "u: Waiter { job: 2, letter: 114, mode: X } waits for cell 5 and has Some(S)");
    desk.cells[5].queue[0].letter = UPDATE;
    fails(promotions(&desk), "u: Waiter { job: 2, letter: 117, mode: X } waits for cell 5, the table has U");
}

#[test]
fn update_locks_are_recorded_as_reads() {
    let before = desk_after("b, b, w 2 5, u 1 5, u 2 6");
    let (mut after, asked) = (before.clone(), line("c 2"));
    let outcome = after.step(asked);
    let seen = Seen { before: &before, asked, outcome: &outcome, after: &after };
    let (end, read) = (line("c 2"), line("r 1 5"));
    assert_eq!(records(&seen, &[end, read]), Ok(()));
    fails(records(&seen, &[end, line("u 1 5")]), "u: the record Line { letter: 117");
    fails(records(&seen, &[end, line("w 1 5")]), "u: [Line { letter: 114");
    fails(records(&seen, &[end]), "u: [Line { letter: 114");
    fails(records(&seen, &[end, read, read]), "u: [Line { letter: 114");
    let outcome = Outcome::alone(Answer::Go(2));
    let seen = Seen { asked: line("u 2 6"), outcome: &outcome, before: &before, after: &before };
    assert_eq!(records(&seen, &[line("r 2 6")]), Ok(()));
    fails(records(&seen, &[line("i 2 6")]), "u: [Line { letter: 114");
}

#[test]
fn update_locks_go_back_for_older_readers_alone() {
    // The holds before the last step, as they are seen, and that step sent back.
    let seen = |steps: &str, job: u32, change: &dyn Fn(&mut Holds)| {
        let (mut desk, mut holds) = (Desk::start(1).unwrap(), Holds::default());
        let steps = text(steps);
        let steps: Vec<&[u8]> = steps.split_inclusive(|&byte| byte == b'\n').collect();
        for step in &steps[..steps.len() - 1] {
            let (before, asked) = (desk.clone(), read_request(step).unwrap());
            let outcome = desk.step(asked);
            holds.see(&Seen { before: &before, asked, outcome: &outcome, after: &desk }).unwrap();
        }
        change(&mut holds);
        let (before, asked) = (desk.clone(), read_request(steps[steps.len() - 1]).unwrap());
        let mut outcome = Outcome::alone(Answer::Back(job));
        send_back(job)(&mut outcome, &mut desk);
        holds.see(&Seen { before: &before, asked, outcome: &outcome, after: &desk })
    };
    assert_eq!(seen("b, b, r 1 5, u 2 5, w 2 5", 2, &|_| {}), Ok(()));
    assert_eq!(seen("b, b, r 1 5, r 2 5, u 2 5, i 2 5", 2, &|_| {}), Ok(()));
    fails(seen("b, b, r 2 5, u 1 5, w 1 5", 1, &|_| {}), "u: 1 had U on cell 5 from step 4");
    fails(seen("b, b, b, r 1 6, r 3 5, r 2 5, u 2 5, i 2 5", 2, &|_| {}), "u: 2 had U on cell 5 from step 7");
    let later = |holds: &mut Holds| holds.all.get_mut(&(5, 1)).unwrap().since = 4;
    fails(seen("b, b, r 1 5, u 2 5, w 2 5", 2, &later), "u: 2 had U on cell 5 from step 4");
}
