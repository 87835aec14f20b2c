//! The chain (02, No. 3): its own cases, computed by hand from the request's words; the question and its
//! refusals; and the program.

use super::lines::{Dribble, Torn};
use super::{check, printed, shown, text};
use crate::chain::ask_chain;
use crate::desk::{Desk, Holder, Job, Status, Waiter};
use crate::run;
use crate::words::*;
use std::cell::RefCell;
use std::io::{self, Read, Write};

/// What the program prints after so many begins and the requests.
fn check_chains(begins: usize, requests: &str, wanted: &str) {
    let input = [vec!["b"; begins].join(", "), requests.to_string()].join(", ");
    check(&["chain"], &input, wanted);
}

#[test]
fn the_night_at_its_sixth_line() {
    check(&["chain"], "b, b, b, r 3 9, w 2 9, r 1 9", "1 3, 2 3");
    // One line more, i 3 40, changes nothing of it; then c 3 wakes 2, and 1 waits for that one.
    check(&["chain"], "b, b, b, r 3 9, w 2 9, r 1 9, i 3 40", "1 3, 2 3");
    check(&["chain"], "b, b, b, r 3 9, w 2 9, r 1 9, i 3 40, c 3", "1 2");
}

#[test]
fn nothing_where_nobody_waits() {
    check(&["chain"], "", "");
    check_chains(3, "", "");
    check_chains(2, "w 1 5, r 2 5", "");
    check_chains(2, "w 2 5, r 1 5, c 2", "");
    check_chains(2, "w 2 5, r 1 5, a 1", "");
    // 3 goes back for the X of 1 on cell 6, and that wakes 2.
    check_chains(3, "w 1 6, w 3 7, w 2 7, r 3 6", "");
}

#[test]
fn until_a_job_that_runs() {
    check_chains(2, "w 2 5, r 1 5", "1 2");
    check_chains(3, "w 3 7, w 2 6, w 2 7, r 1 6", "1 2 3, 2 3");
    // The older waits first, and the one that it waits for later.
    check_chains(4, "w 2 1, w 3 2, w 4 3, w 1 1, w 2 2, w 3 3", "1 2 3 4, 2 3 4, 3 4");
    // The job in the middle gives up: who waited for it goes, and in a queue the next one stays.
    check_chains(3, "w 3 7, w 2 6, w 2 7, r 1 6, a 2", "");
    check_chains(3, "r 3 5, w 2 5, w 1 5, a 2", "1 3");
    // The end of a chain commits: who comes before it runs, and the rest of the chain ends there.
    check_chains(4, "w 2 1, w 3 2, w 4 3, w 1 1, w 2 2, w 3 3, c 4", "1 2 3, 2 3");
}

#[test]
fn the_youngest_of_several() {
    // Holders in S, with S beside U, and in I; the youngest is neither the first nor the last to have come.
    check_chains(4, "r 2 5, r 4 5, r 3 5, w 1 5", "1 4");
    check_chains(4, "r 4 5, r 2 5, u 3 5, w 1 5", "1 4");
    check_chains(4, "i 3 5, i 4 5, i 2 5, r 1 5", "1 4");
    // S does not go beside the U of 3 alone; 4 holds too and is the youngest, though it would let 2 in.
    check_chains(4, "r 4 5, u 3 5, r 2 5", "2 4");
    // The youngest waits itself, and another holder runs: the chain goes on by the youngest.
    check_chains(4, "r 2 5, r 3 5, w 4 6, w 3 6, w 1 5", "1 3 4, 3 4");
    // The oldest holder waits for a younger job than the youngest holder, and the chain does not go there.
    check_chains(4, "r 2 5, r 3 5, w 4 6, w 2 6, w 1 5", "1 3, 2 4");
}

#[test]
fn holders_and_jobs_ahead() {
    check_chains(3, "r 3 5, w 2 5, r 1 5", "1 3, 2 3");
    check_chains(5, "w 5 9, r 4 9, r 3 9, u 2 9, i 1 9", "1 5, 2 5, 3 5, 4 5");
    // A waiter behind others, whose holder waits elsewhere.
    check_chains(5, "w 4 9, w 3 9, w 5 8, w 2 9, i 4 8, w 1 9", "1 4 5, 2 4 5, 3 4 5, 4 5");
    // 3 waits for cell 9 behind 4 and holds cell 7, for which 2 waits.
    check_chains(5, "w 5 9, w 3 7, w 4 9, w 3 9, r 2 7", "2 3 5, 3 5, 4 5");
}

#[test]
fn promotions_that_wait() {
    // S to X, I to X, S to U and U to X: their own hold is left out.
    check_chains(2, "r 1 5, r 2 5, w 1 5", "1 2");
    check_chains(3, "i 1 5, i 3 5, i 2 5, r 1 5", "1 3");
    check_chains(2, "r 1 5, u 2 5, u 1 5", "1 2");
    check_chains(2, "r 2 5, u 1 5, i 1 5", "1 2");
    // 3 stands before 2 and 1, who came earlier: nobody is ahead of it, and it is ahead of them.
    check_chains(4, "r 3 5, r 4 5, w 2 5, w 1 5, w 3 5", "1 4, 2 4, 3 4");
    // The youngest holder waits elsewhere, so a promotion's chain goes on there.
    check_chains(4, "r 2 5, r 3 5, w 4 6, w 3 6, w 2 5, w 1 5", "1 3 4, 2 3 4, 3 4");
}

#[test]
fn chains_apart_and_chains_that_meet() {
    check_chains(4, "w 4 5, w 3 6, r 2 5, r 1 6", "1 3, 2 4");
    check_chains(4, "w 4 5, w 4 6, r 2 5, r 1 6", "1 4, 2 4");
    check_chains(
        6,
        "w 6 0, w 6 63, w 5 1, w 4 2, w 5 0, w 4 63, w 3 1, w 2 2, w 1 2",
        "1 4 6, 2 4 6, 3 5 6, 4 6, 5 6",
    );
}

/// Each of 32 jobs but the last waits for the next: the requests, with cell k held by job k.
fn whole_line() -> String {
    let holds = (2..=32).map(|job| format!("w {job} {job}"));
    let waits = (1..=31).map(|job| format!("w {job} {}", job + 1));
    holds.chain(waits).collect::<Vec<String>>().join(", ")
}

#[test]
fn a_chain_of_32() {
    let chain = |first: u32| (first..=32).map(|job| job.to_string()).collect::<Vec<String>>().join(" ");
    let wanted: Vec<String> = (1..=31).map(chain).collect();
    check_chains(32, &whole_line(), &wanted.join(", "));
    // As it stands in the shortest list that is taken, which it fills.
    let (output, _) = printed(&["chain"], &text(&format!("{}, {}", ["b"; 32].join(", "), whole_line())));
    assert!(
        shown(&output).starts_with("1\t2\t3\t4\t5\t6\t7\t8\t9\t10\t11\t12\t13\t14\t15\t16\t17\t18\t19\t20")
    );
    let mut list = [7; 32];
    assert_eq!(ask_chain(&desk_after(32, &whole_line()), 1, &mut list), Ok(32));
    assert!(list.into_iter().eq(1..=32));
}

/// A desk after so many begins and the requests.
pub fn desk_after(begins: usize, requests: &str) -> Desk {
    let mut desk = Desk::start(1).unwrap();
    for _ in 0..begins {
        desk.step(Line { letter: BEGIN, job: 0, cell: 0 });
    }
    for line in text(requests).split_inclusive(|&byte| byte == b'\n') {
        desk.step(crate::lines::read_request(line).expect("a good line"));
    }
    desk
}

/// A desk that no requests lead to: so many open jobs, and on cell 5 these holders and waiters.
fn desk_of(open: u32, holders: &[u32], queue: &[u32]) -> Desk {
    let mut desk = Desk::start(1).unwrap();
    let status = |job: u32| if queue.contains(&job) { Status::Waiting } else { Status::Running };
    desk.jobs = (1..=open).map(|number| Job { number, status: status(number) }).collect();
    desk.cells[5].holders = holders.iter().map(|&job| Holder { job, mode: Mode::S }).collect();
    desk.cells[5].queue = queue.iter().map(|&job| Waiter { job, letter: WRITE, mode: Mode::X }).collect();
    desk
}

#[test]
fn the_words_where_the_rules_do_not_lead() {
    // On a started desk the youngest in the way is always a holder, and older jobs stand behind. The
    // words count those ahead, leave out those behind and a promotion's own hold, on any desk.
    let ahead = desk_of(4, &[2], &[3, 1, 4]);
    assert_eq!([3, 1, 4].map(|job| ahead.next_in_chain(job)), [Some(2), Some(3), Some(3)]);
    assert_eq!(ahead.next_in_chain(2), None);
    assert_eq!(ahead.chain(1), [1, 3, 2]);
    let promotion = desk_of(5, &[4, 2, 3], &[4, 5, 1]);
    assert_eq!([4, 5, 1].map(|job| promotion.next_in_chain(job)), [Some(3), Some(4), Some(5)]);
}

/// Job 1 waits for cell 5, job 2 holds it and runs, job 3 was sent back, job 4 is closed, and 5 was never
/// given.
const FOUR: &str = "98 0 0|98 0 0|98 0 0|98 0 0|119 2 5|114 1 5|119 3 5|97 4 0|";
const FOUR_ANSWERS: &str = "go 1|go 2|go 3|go 4|go 2|wait 1|back 3|go 4|";

/// Steps and questions after FOUR, with their answers; in an answer `..N` stands for the places up to N,
/// as they were, after what is given before.
fn check_asked(asked: &str, wanted: &str) {
    let input = [FOUR, asked].concat().replace('|', "\n");
    let (output, status) = printed(&["steps", "1"], input.as_bytes());
    let spelled = |answer: &str| match answer.split_once(" ..") {
        None => answer.to_string(),
        Some((told, places)) => {
            let first = told.split(' ').count() as u64 - 2;
            let rest = (first..places.parse().unwrap()).map(|place| format!(" {}", 4_000_000_000 + place));
            told.to_string() + &rest.collect::<String>()
        }
    };
    let wanted: Vec<String> = [FOUR_ANSWERS, wanted].concat().split('|').map(spelled).collect();
    assert_eq!(shown(&output).replace('\t', " ").lines().collect::<Vec<&str>>(), wanted, "{asked}");
    assert_eq!(status, 0);
}

#[test]
fn questions_in_full() {
    let (output, _) = printed(&["steps", "1"], b"98 0 0\n256 1 32\n256 1 3\n256 2 0\n256 2 1\n");
    let places: Vec<String> = (1..32).map(|place| format!("\t40000000{place:02}")).collect();
    let wanted = "\nno\t18\t4000000000\t4000000001\t4000000002\nno\t3\nno\t3\t4000000000\n";
    assert_eq!(shown(&output), ["go\t1\nchain\t1\t1", &places.concat(), wanted].concat());
}

#[test]
fn questions_answered() {
    check_asked("256 1 32|256 1 33|256 1 64", "chain 2 1 2 ..32|chain 2 1 2 ..33|chain 2 1 2 ..64");
    check_asked("256 2 32|256 2 63", "chain 1 2 ..32|chain 1 2 ..63");
    // More than 64 places are taken as 64.
    check_asked("256 2 65|256 1 4294967295", "chain 1 2 ..64|chain 2 1 2 ..64");
    // The desk does not change by them.
    check_asked(
        "256 1 32|256 3 0|256 1 32|99 2 0|256 1 32",
        "chain 2 1 2 ..32|no 5|chain 2 1 2 ..32|go 2 wake 1 5 114|chain 1 1 ..32",
    );
    check_asked("116 3 0|256 3 32|119 3 5|256 3 32", "go 3|chain 1 3 ..32|back 3|no 5 ..32");
}

#[test]
fn questions_refused() {
    // 3: 0, closed, never given, far away, and numbers that are open ones but for high bits.
    check_asked("256 0 32|256 4 32|256 5 32", "no 3 ..32|no 3 ..32|no 3 ..32");
    check_asked("256 4294967295 32|256 257 32|256 65537 32", "no 3 ..32|no 3 ..32|no 3 ..32");
    check_asked("256 2147483649 64", "no 3 ..64");
    check_asked("256 3 32|256 3 64", "no 5 ..32|no 5 ..64");
    check_asked("256 1 31|256 1 1|256 1 0", "no 18 ..31|no 18 ..1|no 18");
    check_asked("256 2 31|256 2 2|256 2 0", "no 18 ..31|no 18 ..2|no 18");
    // 3 and 5 come before 18.
    check_asked("256 0 31|256 4 31|256 9 0|256 3 31|256 3 0", "no 3 ..31|no 3 ..31|no 3|no 5 ..31|no 5");
    // 256 is the only kind above a byte.
    for bad in
        ["257 1 32", "65792 1 32", "512 1 32", "256 1", "256 1 32 0", "256 1 4294967296", "-256 1 32"]
    {
        let input = format!("98 0 0\n{bad}\n98 0 0\n");
        assert_eq!(printed(&["steps", "5"], input.as_bytes()), (b"go\t5\n".to_vec(), 2), "{bad}");
    }
}

#[test]
fn the_list_that_is_lent() {
    let desk = desk_after(4, "w 2 1, w 3 2, w 4 3, w 1 1, w 2 2, w 3 3");
    let mut list: Vec<u32> = (0..100).map(|place| 900 + place).collect();
    assert_eq!(ask_chain(&desk, 1, &mut list), Ok(4));
    assert_eq!(list[..4], [1, 2, 3, 4]);
    assert!(list[4..].iter().copied().eq(904..1_000));
    // A shorter chain later leaves the rest of the longer one.
    assert_eq!(ask_chain(&desk, 3, &mut list), Ok(2));
    assert_eq!(list[..5], [3, 4, 3, 4, 904]);
    let before = list.clone();
    for (job, places, refusal) in [(9, 100, 3), (0, 31, 3), (1, 31, 18), (4, 31, 18), (4, 0, 18)] {
        assert_eq!(ask_chain(&desk, job, &mut list[..places]), Err(refusal));
        assert_eq!(list, before);
    }
}

#[test]
fn the_largest_numbers() {
    let steps = "98 0 0|98 0 0|119 4294967295 63|114 4294967294 63|256 4294967294 32|256 4294967293 32";
    let (output, _) = printed(&["steps", "4294967294"], steps.replace('|', "\n").as_bytes());
    let asked: Vec<String> = shown(&output).lines().skip(4).map(str::to_string).collect();
    assert!(
        asked[0].starts_with("chain\t2\t4294967294\t4294967295\t4000000002\t4000000003\t"),
        "{asked:?}"
    );
    assert!(asked[1].starts_with("no\t3\t4000000000\t4000000001\t"), "{asked:?}");
}

#[test]
fn the_program_reads_lines_as_answers_does() {
    // Bad lines and refused ones change nothing; a last line without its newline is a bad one.
    check_chains(2, "x, w 2 5, r 1 5 5, r 1 5, c 1, k 2, c 9, r 2 64", "1 2");
    assert_eq!(printed(&["chain"], b"b\nb\nw\t2\t5\nr\t1\t5"), (Vec::new(), 0));
    assert_eq!(printed(&["chain"], b"b\nb\nw\t2\t5\nr\t1\t5\nc\t2"), (b"1\t2\n".to_vec(), 0));
    for size in [1, 2, 3, 7, 100] {
        let mut output = Vec::new();
        run(&["chain"], Dribble(b"b\nb\nw\t2\t5\nr\t1\t5\n", size), &mut output).unwrap();
        assert_eq!(shown(&output), "1\t2\n");
    }
}

#[test]
fn the_program_stops_after_a_million_lines() {
    let waits = b"b\nb\nw\t2\t5\nr\t1\t5\n";
    let more = |count: usize| [waits, &b"x\n".repeat(count)[..], b"c\t2\n"].concat();
    assert_eq!(shown(&printed(&["chain"], &more(999_996)).0), "1\t2\n");
    assert_eq!(shown(&printed(&["chain"], &more(999_995)).0), "");
    // After line 1,000,000 it reads no further, so it does not see that it could not.
    let full = [waits, &b"x\n".repeat(999_996)[..]].concat();
    let mut output = Vec::new();
    run(&["chain"], Torn(Dribble(&full, 1 << 20)), &mut output).unwrap();
    assert_eq!(shown(&output), "1\t2\n");
}

#[test]
fn a_failed_read_prints_no_chain() {
    for input in [&b"b\nb\nw\t2\t5\nr\t1\t5\n"[..], b"b\nb\nw\t2\t5\nr\t1\t5\nx", b""] {
        let mut output = Vec::new();
        assert_eq!(run(&["chain"], Torn(Dribble(input, 3)), &mut output).unwrap(), 0);
        assert_eq!(shown(&output), "");
    }
}

/// A reader that sees nothing written at any read, and is interrupted before each.
struct Quiet<'a>(Dribble<'a>, &'a RefCell<Vec<u8>>, bool);

impl Read for Quiet<'_> {
    fn read(&mut self, buffer: &mut [u8]) -> io::Result<usize> {
        assert!(self.1.borrow().is_empty(), "something is printed while there is more to read");
        self.2 = !self.2;
        if self.2 {
            return Err(io::ErrorKind::Interrupted.into());
        }
        self.0.read(buffer)
    }
}

struct Kept<'a>(&'a RefCell<Vec<u8>>);

impl Write for Kept<'_> {
    fn write(&mut self, bytes: &[u8]) -> io::Result<usize> {
        self.0.borrow_mut().extend_from_slice(bytes);
        Ok(bytes.len())
    }
    fn flush(&mut self) -> io::Result<()> {
        Ok(())
    }
}

#[test]
fn nothing_is_printed_while_reading() {
    let output = RefCell::new(Vec::new());
    let input = b"b\nb\nw\t2\t5\nr\t1\t5\nb\nx\nb\n";
    run(&["chain"], Quiet(Dribble(input, 4), &output, false), &mut Kept(&output)).unwrap();
    assert_eq!(shown(&output.borrow()), "1\t2\n");
}
