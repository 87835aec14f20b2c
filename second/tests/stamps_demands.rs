//! What is demanded of the timestamp desk (02, No. 6): wrong desks are found out, and each statement is able to
//! fail.

use super::{made, printed, shown, text};
use crate::demands::stamps::*;
use crate::desk::{Answer, Outcome};
use crate::lines::{read_line, read_request};
use crate::stamps::{writes, Stamps};
use crate::words::*;

type Step = fn(&mut Stamps, Line) -> Outcome;

fn line(words: &str) -> Line {
    read_line(&text(words), b"bcatrwiku").expect("a good line")
}

fn fails(found: Result<(), String>, wanted: &str) {
    let text = found.expect_err("a violation to be seen");
    assert!(text.starts_with(wanted), "{text}");
}

/// The request is a read, a write, an increment or a `u` that is not refused.
fn is_ask(desk: &Stamps, asked: Line) -> bool {
    has_cell(asked.letter) && desk.refusal(asked).is_none()
}

fn send_back(desk: &mut Stamps, asked: Line) -> Outcome {
    desk.close(asked.job);
    Outcome::alone(Answer::Back(asked.job))
}

fn equal_numbers_go_back(desk: &mut Stamps, asked: Line) -> Outcome {
    if is_ask(desk, asked) {
        let marks = desk.cells[asked.cell as usize];
        if asked.job == marks.writer || writes(asked.letter) && asked.job == marks.reader {
            return send_back(desk, asked);
        }
    }
    desk.step(asked)
}

/// As document 004 has it.
fn equal_reads_go_back(desk: &mut Stamps, asked: Line) -> Outcome {
    if asked.letter == READ {
        equal_numbers_go_back(desk, asked)
    } else {
        desk.step(asked)
    }
}

fn stepped_as(desk: &mut Stamps, asked: Line, from: u8, to: u8) -> Outcome {
    let letter = if asked.letter == from { to } else { asked.letter };
    desk.step(Line { letter, ..asked })
}

fn increment_as_a_read(desk: &mut Stamps, asked: Line) -> Outcome {
    stepped_as(desk, asked, INCREMENT, READ)
}

fn increment_as_a_write(desk: &mut Stamps, asked: Line) -> Outcome {
    stepped_as(desk, asked, INCREMENT, WRITE)
}

fn update_as_a_write(desk: &mut Stamps, asked: Line) -> Outcome {
    stepped_as(desk, asked, UPDATE, WRITE)
}

/// Goes, whatever the cell's reader number is, and sets what it should.
fn past_readers(desk: &mut Stamps, asked: Line, letter: u8) -> Outcome {
    if asked.letter == letter && is_ask(desk, asked) {
        let marks = &mut desk.cells[asked.cell as usize];
        if asked.job >= marks.writer {
            marks.set(letter, asked.job);
            return Outcome::alone(Answer::Go(asked.job));
        }
    }
    desk.step(asked)
}

fn write_by_the_writer_alone(desk: &mut Stamps, asked: Line) -> Outcome {
    past_readers(desk, asked, WRITE)
}

fn increment_by_the_writer_alone(desk: &mut Stamps, asked: Line) -> Outcome {
    past_readers(desk, asked, INCREMENT)
}

fn read_by_the_reader_too(desk: &mut Stamps, asked: Line) -> Outcome {
    if is_ask(desk, asked) && asked.job < desk.cells[asked.cell as usize].reader {
        return send_back(desk, asked);
    }
    desk.step(asked)
}

/// An obsolete write goes and is not done.
fn write_passed_over(desk: &mut Stamps, asked: Line) -> Outcome {
    if is_ask(desk, asked) && asked.letter == WRITE {
        let marks = desk.cells[asked.cell as usize];
        if marks.reader <= asked.job && asked.job < marks.writer {
            return Outcome::alone(Answer::Go(asked.job));
        }
    }
    desk.step(asked)
}

/// The job's numbers are taken away after such an answer.
fn take_down(desk: &mut Stamps, job: u32) {
    for marks in &mut desk.cells {
        for number in [&mut marks.reader, &mut marks.writer] {
            if *number == job {
                *number = 0;
            }
        }
    }
}

fn numbers_taken_down_at_back(desk: &mut Stamps, asked: Line) -> Outcome {
    let outcome = desk.step(asked);
    if let Answer::Back(job) = outcome.answer {
        take_down(desk, job);
    }
    outcome
}

fn numbers_taken_down_at_an_end(desk: &mut Stamps, asked: Line) -> Outcome {
    let outcome = desk.step(asked);
    if matches!((outcome.answer, asked.letter), (Answer::Go(_), COMMIT | GIVE_UP)) {
        take_down(desk, asked.job);
    }
    outcome
}

fn back_sets_the_reader(desk: &mut Stamps, asked: Line) -> Outcome {
    let outcome = desk.step(asked);
    if matches!(outcome.answer, Answer::Back(_)) {
        let marks = &mut desk.cells[asked.cell as usize];
        marks.reader = marks.reader.max(asked.job);
    }
    outcome
}

fn back_sets_the_writer(desk: &mut Stamps, asked: Line) -> Outcome {
    let outcome = desk.step(asked);
    if matches!(outcome.answer, Answer::Back(_)) && writes(asked.letter) {
        let marks = &mut desk.cells[asked.cell as usize];
        marks.writer = marks.writer.max(asked.job);
    }
    outcome
}

fn the_last_reader_counts(desk: &mut Stamps, asked: Line) -> Outcome {
    let outcome = desk.step(asked);
    if matches!((outcome.answer, asked.letter), (Answer::Go(_), READ | UPDATE)) {
        desk.cells[asked.cell as usize].reader = asked.job;
    }
    outcome
}

fn sent_back_stays_open(desk: &mut Stamps, asked: Line) -> Outcome {
    let before = desk.jobs.clone();
    let outcome = desk.step(asked);
    if matches!(outcome.answer, Answer::Back(_)) {
        desk.jobs = before;
    }
    outcome
}

fn waits_for_the_writer(desk: &mut Stamps, asked: Line) -> Outcome {
    let before = desk.clone();
    let outcome = desk.step(asked);
    if let Answer::Back(job) = outcome.answer {
        *desk = before;
        return Outcome::alone(Answer::Wait(job));
    }
    outcome
}

fn number_given_again(desk: &mut Stamps, asked: Line) -> Outcome {
    let outcome = desk.step(asked);
    if let Answer::Back(job) = outcome.answer {
        desk.next = u64::from(job);
    }
    outcome
}

fn refused(asked: Line, letter: u8, number: u8) -> Option<Outcome> {
    (asked.letter == letter).then(|| Outcome::alone(Answer::No(number)))
}

fn nineteen_before_3(desk: &mut Stamps, asked: Line) -> Outcome {
    refused(asked, RETRY, NO_RETRY).unwrap_or_else(|| desk.step(asked))
}

fn three_for_every_retry(desk: &mut Stamps, asked: Line) -> Outcome {
    refused(asked, RETRY, JOB_NOT_OPEN).unwrap_or_else(|| desk.step(asked))
}

fn eight_for_19(desk: &mut Stamps, asked: Line) -> Outcome {
    match desk.step(asked).answer {
        Answer::No(NO_RETRY) => Outcome::alone(Answer::No(JOB_RUNNING)),
        answer => Outcome::alone(answer),
    }
}

fn two_before_3(desk: &mut Stamps, asked: Line) -> Outcome {
    if has_cell(asked.letter) && asked.cell > 63 {
        return Outcome::alone(Answer::No(NO_SUCH_CELL));
    }
    desk.step(asked)
}

fn retry_goes(desk: &mut Stamps, asked: Line) -> Outcome {
    match desk.step(asked).answer {
        Answer::No(NO_RETRY) => Outcome::alone(Answer::Go(asked.job)),
        answer => Outcome::alone(answer),
    }
}

fn a_33rd_place(desk: &mut Stamps, asked: Line) -> Outcome {
    if asked.letter == BEGIN && desk.refusal(asked) == Some(PLACES_FULL) {
        return Outcome::alone(desk.begin());
    }
    desk.step(asked)
}

/// Wrong desks, and the statements that find each of them out, parted by `|`.
#[rustfmt::skip]
const WRONG: &[(&str, Step, &str)] = &[
    ("equal numbers go back", equal_numbers_go_back, "e: went back for nobody"),
    ("a read goes back where it is equal", equal_reads_go_back, "e: went back for nobody"),
    ("an increment as a read alone", increment_as_a_read, "b: cell|e: went, and there was"),
    ("an increment as a write alone", increment_as_a_write, "b: cell"),
    ("`u` as a write", update_as_a_write, "b: cell|b: the numbers of cell|e: went back for nobody"),
    ("a write looks at the writer number alone", write_by_the_writer_alone, "e: went, and there was"),
    ("an increment looks at the writer number alone", increment_by_the_writer_alone, "e: went, and there was"),
    ("a read looks at the reader number too", read_by_the_reader_too, "e: went back for nobody"),
    ("an obsolete write goes and is not done", write_passed_over, "e: went, and there was"),
    ("numbers taken down at back", numbers_taken_down_at_back, "b: the numbers of cell"),
    ("numbers taken down at commit and give-up", numbers_taken_down_at_an_end, "b: the numbers of cell"),
    ("a request sent back sets the reader number", back_sets_the_reader, "b: cell"),
    ("a write sent back sets the writer number", back_sets_the_writer, "b: cell"),
    ("the last reader, not the largest", the_last_reader_counts, "b: the numbers of cell"),
    ("a sent back job stays open", sent_back_stays_open, "d: "),
    ("waits in place of back", waits_for_the_writer, "c: "),
    ("a number given again", number_given_again, "d: begin gave"),
    ("19 before 3", nineteen_before_3, "c: the table says Some(3), the desk Some(19)"),
    ("3 for every retry", three_for_every_retry, "c: the table says Some(19), the desk Some(3)"),
    ("8 for 19", eight_for_19, "c: refusal Some(8)"),
    ("2 before 3", two_before_3, "c: the table says Some(3), the desk Some(2)"),
    ("retry goes", retry_goes, "c: the table says Some(19), the desk None"),
    ("33 places", a_33rd_place, "c: the table says Some(6), the desk None"),
];

/// Nearly every random run finds out each wrong desk, and by the statements that are meant.
#[test]
fn wrong_desks_are_found_out() {
    for (what, step, wanted) in WRONG {
        let found: Vec<String> = (0..12).filter_map(|seed| stamp_run(seed, 500, step).err()).collect();
        assert!(found.len() >= 8, "{what}: found out by {} of 12", found.len());
        for text in found {
            let (_, told) = text.split_once("}: ").expect("a step");
            assert!(wanted.split('|').any(|statement| told.starts_with(statement)), "{what}: {text}");
        }
    }
}

/// These answer as the right desk does: a reader number that is not above the writer number is never looked
/// at. Only (b) knows them.
const UNSEEN: &[&str] = &["an increment as a write alone", "a request sent back sets the reader number"];

/// Nearly every made text has a request that a wrong desk answers otherwise than the right one.
#[test]
fn wrong_desks_answer_the_makers_otherwise() {
    let answers = |input: &[u8], step: &Step| -> Vec<Answer> {
        let mut desk = Stamps::start(1).unwrap();
        let lines = input.split_inclusive(|&byte| byte == b'\n');
        lines.filter_map(|line| read_request(line).ok()).map(|asked| step(&mut desk, asked).answer).collect()
    };
    for (what, step, _) in WRONG {
        let other = (0..12u64).filter(|seed| {
            let input = made(&["make", "stamps", &seed.to_string(), "600"]);
            let right: Step = Stamps::step;
            answers(&input, step) != answers(&input, &right)
        });
        let other = other.count();
        let fits = if UNSEEN.contains(what) { other == 0 } else { other >= 8 };
        assert!(fits, "{what}: answered otherwise in {other} of 12 texts");
    }
}

#[test]
fn demands_hold_for_the_timestamp_desk() {
    for seed in 0..40 {
        assert_eq!(stamp_demands(seed, 700), Ok(()), "seed {seed}");
    }
    let (output, status) = printed(&["stamp_demands", "3", "200"], b"");
    assert_eq!((shown(&output).as_str(), status), ("stamp_demands: 3 ok\n", 0));
}

/// Watches the steps, all but the last as they are, the last as `change` leaves it.
fn watched(steps: &str, change: impl Fn(&mut Outcome, &mut Stamps)) -> Result<(), String> {
    let mut watch = StampWatch::new(1);
    let mut desk = Stamps::start(1).unwrap();
    let steps = text(steps);
    let steps: Vec<&[u8]> = steps.split_inclusive(|&byte| byte == b'\n').collect();
    for (number, step) in steps.iter().enumerate() {
        let asked = read_request(step).expect("a good line");
        let before = desk.clone();
        let mut outcome = desk.step(asked);
        let last = number + 1 == steps.len();
        if last {
            change(&mut outcome, &mut desk);
        }
        let seen = StampSeen { before: &before, asked, outcome: &outcome, after: &desk };
        watch.see(&seen).map_err(|text| if last { text } else { format!("early: {text}") })?;
    }
    watch.whole_history()
}

#[test]
fn a_can_fail() {
    let of = |lines: &[&str]| StampWatch {
        history: lines.iter().map(|words| line(words)).collect(),
        ..StampWatch::new(1)
    };
    let reads = of(&["r 2 0", "r 1 0", "i 2 1", "c 1", "a 2"]);
    assert_eq!(reads.whole_history(), Ok(()));
    assert_eq!(reads.number_order(line("r 1 0")), Ok(()));
    fails(reads.number_order(line("w 1 0")), "a: Line { letter: 119, job: 1, cell: 0 } stands after");
    fails(reads.number_order(line("i 1 1")), "a: ");
    // Two that go back, give up or do not end count like the rest; increments stand in any order for the judge.
    fails(of(&["r 2 0", "w 1 0", "k 1", "a 2"]).whole_history(), "a: Line { letter: 114, job: 2");
    fails(of(&["i 2 0", "r 1 0"]).whole_history(), "a: Line { letter: 105, job: 2");
    assert_eq!(of(&["i 2 0", "i 1 0", "c 1", "c 2"]).whole_history(), Ok(()));
    let history = |lines: &[&str]| judged(&of(lines).history);
    fails(history(&["w 2 0", "w 1 0", "w 1 1", "w 2 1", "c 1", "c 2"]), "a: the judge finds the knot [1, 2]");
    fails(history(&["w 2 0", "r 1 0", "c 1", "c 2"]), "a: the judge's order is [2, 1]");
    // Dirt does not hide it.
    fails(history(&["w 3 5", "r 1 5", "w 2 0", "r 1 0", "c 1", "c 2"]), "a: the judge's order is [2, 1]");
    assert_eq!(history(&["w 1 0", "r 2 0", "c 2", "a 1"]), Ok(()));
    fails(history(&["c 2", "w 2 0"]), "a: the judge refuses by 13");
}

#[test]
fn the_judge_sees_the_last_lines_within_its_limits() {
    let event = |job: u32| Line { letter: READ, job, cell: 0 };
    let many: Vec<Line> = (1_000..1_300).map(event).collect();
    let lines = within_limits(&many);
    assert_eq!((lines.len(), lines[0].job, lines[254].job), (255, 1, 255));
    let one: Vec<Line> = [7, 3].into_iter().chain([9; 5_000]).map(event).collect();
    let lines = within_limits(&one);
    assert_eq!((lines.len(), lines[0].job), (4_096, 1));
    let lines = within_limits(&one[..4]);
    assert_eq!(lines.iter().map(|line| line.job).collect::<Vec<u32>>(), [2, 1, 3, 3]);
    assert_eq!(judged(&[]), Ok(()));
}

#[test]
fn b_can_fail() {
    let steps = "b, b, r 2 5, w 2 6, r 1 5";
    assert_eq!(watched(steps, |_, _| {}), Ok(()));
    fails(watched(steps, |_, desk| desk.cells[5].reader = 1), "b: the numbers of cell 5 fall");
    fails(watched(steps, |_, desk| desk.cells[6].writer = 0), "b: the numbers of cell 6 fall");
    fails(watched(steps, |_, desk| desk.cells[7].writer = 1), "b: cell 7 has");
    fails(watched("b, u 1 5", |_, desk| desk.cells[5].reader = 0), "b: cell 5 has");
    fails(watched("b, i 1 5", |_, desk| desk.cells[5].writer = 0), "b: cell 5 has");
    fails(watched("b, w 1 5", |_, desk| desk.cells[5].reader = 1), "b: cell 5 has");
    fails(watched("b", |_, desk| desk.cells.truncate(63)), "b: 63 cells");
}

#[test]
fn c_can_fail() {
    fails(watched("b, r 1 5", |outcome, _| outcome.answer = Answer::No(2)), "c: the table says None");
    fails(watched("b, r 1 64", |outcome, _| outcome.answer = Answer::Go(1)), "c: the table says Some(2)");
    fails(watched("b, t 1", |outcome, _| outcome.answer = Answer::Go(1)), "c: the table says Some(19)");
    fails(watched("b, r 1 64", |_, desk| desk.next += 1), "c: a refusal changed");
    fails(watched("b, b, w 2 5, r 1 5, t 1", |_, desk| desk.cells[5].writer = 0), "c: a refusal changed");
    for number in [4, 5, 8] {
        fails(watched("b, t 1", |outcome, _| outcome.answer = Answer::No(number)), "c: refusal");
    }
    fails(watched("b, b, w 2 5, r 1 5", |outcome, _| outcome.answer = Answer::Wait(1)), "c: 1 waits");
    fails(watched("b, c 1", |outcome, _| outcome.wakes.push(line("r 2 5"))), "c: [Line");
}

#[test]
fn d_can_fail() {
    fails(watched("b, b, c 2, b", |outcome, _| outcome.answer = Answer::Go(2)), "d: begin gave 2");
    fails(watched("b, b", |outcome, _| outcome.answer = Answer::Go(3)), "d: begin gave 3");
    fails(watched("b", |outcome, _| outcome.answer = Answer::Go(2)), "d: begin gave 2");
    fails(watched("b, b, r 2 5", |outcome, _| outcome.answer = Answer::Go(1)), "d: answer for 1");
    let steps = "b, b, w 2 5, r 1 5";
    fails(watched(steps, |_, desk| desk.jobs.push(1)), "d: [1, 2] are open, and should be [2]");
    fails(watched(steps, |_, desk| desk.jobs.push(2)), "d: [2, 2] are open");
    fails(watched("b, b, c 2", |_, desk| desk.jobs.push(2)), "d: [1, 2] are open, and should be [1]");
    fails(watched("b, b, a 2", |_, desk| desk.jobs.clear()), "d: [] are open, and should be [1]");
    fails(watched("b", |_, desk| desk.jobs.clear()), "d: [] are open, and should be [1]");
}

#[test]
fn e_can_fail() {
    let back = |outcome: &mut Outcome, desk: &mut Stamps| *outcome = send_back(desk, line("r 1 5"));
    fails(watched("b, b, r 2 5, r 1 5", back), "e: went back for nobody");
    fails(watched("b, c 1", back), "e: went back for nobody");
    let go = |outcome: &mut Outcome, desk: &mut Stamps| {
        outcome.answer = Answer::Go(1);
        desk.jobs.insert(0, 1);
    };
    for steps in
        ["w 2 5, r 1 5", "i 2 5, u 1 5", "r 2 5, w 1 5", "u 2 5, i 1 5", "w 2 5, w 1 5", "i 2 5, i 1 5"]
    {
        fails(watched(&format!("b, b, {steps}"), go), "e: went, and there was");
        // Nor does it help that the younger has ended.
        for end in ["c 2", "a 2"] {
            let steps = steps.replace(", ", &format!(", {end}, "));
            fails(watched(&format!("b, b, {steps}"), go), "e: went, and there was");
        }
    }
}
