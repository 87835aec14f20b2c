//! Lines for both readers: good, spoilt and rubbish.

use super::faults::{put_faults, torn_line, RUNNING};
use super::Chance;
use crate::lines::put_fields;
use crate::words::{Line, LAST_NUMBER};

/// Numbers at the edges of job and cell, good and bad.
#[rustfmt::skip]
pub const EDGE_NUMBERS: &[&str] = &[
    "0", "1", "9", "10", "63", "64", "65", "99", "100", "101", "255", "256", "00", "000", "01",
    "07", "063", "064", "0100", "999999999", "1000000000", "4294967294", "4294967295", "4294967296",
    "4294967297", "4294967303", "5294967295", "9999999999", "04294967295", "10000000000",
    "42949672950", "00000000007", "18446744073709551615", "18446744073709551616",
    "18446744073709551623", "99999999999999999999", "00000000000000000007", "-0", "-1", "+1", "0x7",
    "1e1", "7.", "1_0", "1,0", "", " ", " 7", "7 ",
];

/// Any byte but the newline, and mostly one that may deceive a reader.
pub fn odd_byte(chance: &mut Chance) -> u8 {
    let byte = match chance.below(3) {
        0 => chance.below(256) as u8,
        1 => chance.of(b"0123456789"),
        _ => chance.of(b"\t\t \r\0+-.,/:bcatrwikuBCATRWIKUx\x0b\x0c\x7f\x80\xff"),
    };
    if byte == b'\n' {
        b'\r'
    } else {
        byte
    }
}

/// A line that is well formed for at least one reader, without its newline.
pub fn good_line(chance: &mut Chance) -> Vec<u8> {
    let letter = chance.of(b"bcatrwikurwiurwi");
    let job = match chance.below(4) {
        0 => chance.number() as u32,
        1 => chance.of(&[0, 1, 255, 256, 999_999_999, 1_000_000_000, LAST_NUMBER - 1, LAST_NUMBER]),
        _ => chance.below(300) as u32,
    };
    let mut line = Vec::new();
    put_fields(&mut line, Line { letter, job, cell: chance.below(100) as u32 });
    line
}

/// Faults put into a line on purpose, or one of a great many small changes to it.
pub fn spoil_line(chance: &mut Chance, line: &[u8]) -> Vec<u8> {
    if chance.percent(50) {
        return put_faults(chance, line);
    }
    let mut line = line.to_vec();
    let at = chance.below(line.len() + 1);
    let inside = at < line.len();
    match chance.below(16) {
        0 | 1 if inside => line[at] = odd_byte(chance),
        2 => line.truncate(at),
        3 | 4 => line.insert(at, odd_byte(chance)),
        5 if inside => drop(line.remove(at)),
        6 if inside => line.insert(at, line[at]),
        7 => line.make_ascii_uppercase(),
        8 => line.push(chance.of(b"\r\t \0")),
        9 => line.extend(line.clone()),
        10 => line.clear(),
        _ => line = spoil_fields(chance, &line),
    }
    line
}

/// A change to the fields of a line.
pub fn spoil_fields(chance: &mut Chance, line: &[u8]) -> Vec<u8> {
    let mut fields: Vec<Vec<u8>> = line.split(|&byte| byte == b'\t').map(|field| field.to_vec()).collect();
    let at = chance.below(fields.len());
    let number = chance.of(EDGE_NUMBERS).as_bytes().to_vec();
    match chance.below(12) {
        0 => drop(fields.remove(at)),
        1 => fields.insert(at, Vec::new()),
        2 => fields.push(number),
        3 => fields.push(Vec::new()),
        4 => fields[at].clear(),
        5 => fields[at].insert(0, chance.of(b"0+- ")),
        6 => fields[at].push(chance.of(b"0 \r\0")),
        7 => fields.swap(at, 0),
        8 => fields[0] = vec![chance.of(b"abcdefghijklmnopqrstuvwxyzABCIKRTUW01 ")],
        9 => fields[at] = number,
        10 if fields.len() > 1 => fields[1] = number,
        _ if fields.len() > 2 => fields[2] = number,
        _ => {
            let last = fields.len() - 1;
            fields[last] = number;
        }
    }
    fields.join(&b'\t')
}

/// A good, a spoilt or a rubbish line, without its newline.
pub fn odd_line(chance: &mut Chance) -> Vec<u8> {
    if chance.percent(4) {
        return (0..chance.below(24)).map(|_| odd_byte(chance)).collect();
    }
    let mut line = good_line(chance);
    for _ in 0..chance.of(&[0, 0, 0, 0, 1, 1, 1, 2, 3]) {
        line = spoil_line(chance, &line);
    }
    if chance.percent(1) {
        let long = if chance.percent(30) { chance.between(1_000, 6_000) } else { chance.between(14, 140) };
        let byte = odd_byte(chance);
        line.resize(line.len() + long, byte);
    }
    line
}

/// A line with a run of one byte in it that is many thousand bytes long.
pub fn huge_line(chance: &mut Chance) -> Vec<u8> {
    let mut line = odd_line(chance);
    let at = chance.below(line.len() + 1);
    let many = chance.between(20_000, 200_000);
    line.splice(at..at, vec![chance.of(RUNNING); many]);
    line
}

/// A line of `make lines`: of every four texts about one has a huge line. The last may lack its newline.
pub fn reader_line(chance: &mut Chance, count: u64, torn: bool) -> Vec<u8> {
    if chance.number() % (4 * count) == 0 || torn && chance.percent(5) {
        huge_line(chance)
    } else if torn {
        let line = good_line(chance);
        torn_line(chance, &line)
    } else {
        odd_line(chance)
    }
}
