//! The making of texts: the same seed gives the same bytes for ever.

pub mod cases;
pub mod chains;
pub mod dirt;
pub mod faults;
pub mod histories;
pub mod knots;
pub mod lines;
pub mod plans;
pub mod requests;
pub mod stamps;

use crate::commands::{write_out, WRITE_AT_ONCE};
use crate::lines::read_request;
use crate::words::{Line, LAST_NUMBER};
use cases::case_text;
use chains::Shaper;
use faults::torn_line;
use histories::{fields_of, history_lines};
use knots::knots_history;
use lines::reader_line;
use requests::Maker;
use stamps::StampMaker;
use std::io::{self, Write};

/// Splitmix64: the same seed gives the same numbers for ever.
pub struct Chance(pub u64);

impl Chance {
    pub fn number(&mut self) -> u64 {
        self.0 = self.0.wrapping_add(0x9e37_79b9_7f4a_7c15);
        let mut mixed = self.0;
        mixed = (mixed ^ (mixed >> 30)).wrapping_mul(0xbf58_476d_1ce4_e5b9);
        mixed = (mixed ^ (mixed >> 27)).wrapping_mul(0x94d0_49bb_1331_11eb);
        mixed ^ (mixed >> 31)
    }

    /// A number below `count`, which is not 0.
    pub fn below(&mut self, count: usize) -> usize {
        (self.number() % count as u64) as usize
    }

    pub fn between(&mut self, low: usize, high: usize) -> usize {
        low + self.below(high - low + 1)
    }

    pub fn percent(&mut self, share: usize) -> bool {
        self.below(100) < share
    }

    pub fn of<T: Copy>(&mut self, choices: &[T]) -> T {
        choices[self.below(choices.len())]
    }

    pub fn shuffle<T>(&mut self, items: &mut [T]) {
        for last in (1..items.len()).rev() {
            items.swap(last, self.below(last + 1));
        }
    }
}

/// Puts so many lines, each with a newline, but the last without one if `torn`; `next` is told of that line.
pub fn put_lines(
    output: &mut impl Write,
    count: u64,
    torn: bool,
    mut next: impl FnMut(bool) -> Vec<u8>,
) -> io::Result<()> {
    let mut out = Vec::new();
    for number in 1..=count {
        let torn = torn && number == count;
        out.extend(next(torn));
        if !torn {
            out.push(b'\n');
        }
        if out.len() >= WRITE_AT_ONCE {
            write_out(output, &mut out)?;
        }
    }
    write_out(output, &mut out)
}

pub fn make_requests(seed: u64, count: u64, output: &mut impl Write) -> io::Result<()> {
    let mut maker = Maker::new(seed, 1, LAST_NUMBER, seed % 8 == 4);
    let torn = maker.chance.percent(25);
    put_lines(output, count, torn, |torn| {
        let mut line = maker.choose_line();
        if torn {
            line = torn_line(&mut maker.chance, &line);
        }
        if let Ok(asked) = read_request(&[&line[..], b"\n"].concat()) {
            maker.desk.step(asked);
        }
        line
    })
}

pub fn make_histories(seed: u64, count: u64, output: &mut impl Write) -> io::Result<()> {
    let mut text = history_lines(seed, count as usize).into_iter();
    let mut chance = Chance(!seed);
    put_lines(output, count, seed % 33 == 31, |torn| {
        let line = text.next().unwrap_or_default();
        if torn {
            torn_line(&mut chance, &line)
        } else {
            line
        }
    })
}

pub fn make_knots(seed: u64, count: u64, output: &mut impl Write) -> io::Result<()> {
    let mut events = knots_history(&mut Chance(seed), count as usize).into_iter();
    put_lines(output, count, false, |_| events.next().map_or_else(Vec::new, fields_of))
}

pub fn make_lines(seed: u64, count: u64, output: &mut impl Write) -> io::Result<()> {
    let mut chance = Chance(seed);
    put_lines(output, count, seed % 4 != 0, |torn| reader_line(&mut chance, count, torn))
}

pub fn make_steps(seed: u64, count: u64, first: u32, output: &mut impl Write) -> io::Result<()> {
    let mut maker = Maker::new(seed, first, LAST_NUMBER, seed % 8 == 4);
    put_lines(output, count, false, |_| {
        let asked = maker.choose_step();
        maker.desk.step(asked);
        step_text(asked)
    })
}

/// A step by numbers, without its newline.
pub fn step_text(asked: Line) -> Vec<u8> {
    format!("{} {} {}", asked.letter, asked.job, asked.cell).into_bytes()
}

pub fn make_stamps(seed: u64, count: u64, output: &mut impl Write) -> io::Result<()> {
    let mut maker = StampMaker::new(seed, 1);
    let torn = maker.chance.percent(25);
    put_lines(output, count, torn, |torn| {
        let mut line = maker.choose_line();
        if torn {
            line = torn_line(&mut maker.chance, &line);
        }
        if let Ok(asked) = read_request(&[&line[..], b"\n"].concat()) {
            let outcome = maker.desk.step(asked);
            maker.note(asked, &outcome);
        }
        line
    })
}

pub fn make_stamp_steps(seed: u64, count: u64, first: u32, output: &mut impl Write) -> io::Result<()> {
    let mut maker = StampMaker::new(seed, first);
    put_lines(output, count, false, |_| {
        let asked = maker.choose_step();
        let outcome = maker.desk.step(asked);
        maker.note(asked, &outcome);
        step_text(asked)
    })
}

pub fn make_chains(seed: u64, count: u64, output: &mut impl Write) -> io::Result<()> {
    let mut shaper = Shaper::new(seed, 1);
    let torn = shaper.maker.chance.percent(10);
    put_lines(output, count, torn, |_| shaper.line())
}

pub fn make_asked(seed: u64, count: u64, first: u32, output: &mut impl Write) -> io::Result<()> {
    let mut shaper = Shaper::new(seed, first);
    put_lines(output, count, false, |_| shaper.asked())
}

/// The last case lacks its last newline if the seed is odd, and may break off there.
pub fn make_cases(seed: u64, count: u64, output: &mut impl Write) -> io::Result<()> {
    let mut chance = Chance(seed);
    let mut out = Vec::new();
    for number in 0..count {
        out.extend(case_text(&mut chance, number, number + 1 == count && seed % 2 == 1));
        write_out(output, &mut out)?;
    }
    Ok(())
}
