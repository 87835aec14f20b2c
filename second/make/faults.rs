//! Faults put into lines on purpose (02, No. 5): into each field and after the last, in every way, one or
//! two at once, in short lines and in long ones; and lines that break off.

use super::lines::{good_line, odd_byte, EDGE_NUMBERS};
use super::Chance;
use crate::words::*;

/// Bytes that part no fields, and that no letter and no number has.
pub const STRAY: &[u8] = b" \r\0+-.,:/x_=\x0b\x7f\x80\xb2\xff";

/// Bytes of which runs are made.
pub const RUNNING: &[u8] = b"0179\t\tx \r\0\xff";

/// A line with a fault in one of its fields or after the last, or in two of these places; at times first made
/// as long as a good line can be, and at times then brought to a length about that.
pub fn put_faults(chance: &mut Chance, line: &[u8]) -> Vec<u8> {
    let mut fields: Vec<Vec<u8>> = line.split(|&byte| byte == b'\t').map(|field| field.to_vec()).collect();
    if chance.percent(30) {
        widen(chance, &mut fields);
    }
    let after_last = fields.len();
    let mut places: Vec<usize> = (usize::from(chance.percent(60))..=after_last).collect();
    chance.shuffle(&mut places);
    places.truncate(chance.of(&[1, 1, 2]));
    places.sort_by(|one, other| other.cmp(one));
    for place in places {
        match place {
            0 => spoil_letter(chance, &mut fields),
            _ if place == after_last => put_more(chance, &mut fields),
            _ => spoil_number(chance, &mut fields, place),
        }
    }
    let mut line = fields.join(&b'\t');
    if chance.percent(15) {
        aim(chance, &mut line);
    }
    line
}

/// A job of ten digits, and a cell of two.
pub fn widen(chance: &mut Chance, fields: &mut [Vec<u8>]) {
    for (place, field) in fields.iter_mut().enumerate().skip(1) {
        let (least, last) = if place == 1 { (1_000_000_000, LAST_NUMBER) } else { (10, LAST_CELL) };
        let number = chance.between(least, last as usize);
        *field = chance.of(&[number, number, last as usize]).to_string().into_bytes();
    }
}

/// Another letter, none, or more than a letter.
pub fn spoil_letter(chance: &mut Chance, fields: &mut Vec<Vec<u8>>) {
    let letter = &mut fields[0];
    match chance.below(10) {
        0 => letter.clear(),
        1 => *letter = vec![chance.of(b"defghjlmnopqsvxyz")],
        2 => letter.make_ascii_uppercase(),
        3 => *letter = vec![chance.of(b"kkkbtu")],
        4 => letter.push(chance.of(b"bcatrwiku")),
        5 => letter.push(chance.of(STRAY)),
        6 => letter.insert(0, chance.of(STRAY)),
        7 => *letter = vec![if chance.percent(30) { chance.of(b"0123456789") } else { chance.of(STRAY) }],
        8 => letter.extend(run(chance)),
        _ => drop(fields.remove(0)),
    }
}

/// A job or a cell that is none, or is not there.
pub fn spoil_number(chance: &mut Chance, fields: &mut Vec<Vec<u8>>, place: usize) {
    let field = &mut fields[place];
    let at = chance.below(field.len() + 1);
    let stray = chance.of(STRAY);
    match chance.below(14) {
        0 => field.clear(),
        1 => fields.truncate(place),
        2 | 3 => *field = above(chance, place).to_string().into_bytes(),
        4 => drop(field.splice(0..0, vec![b'0'; length(chance)])),
        5 => field.insert(0, chance.of(b"+-")),
        6 => field.insert(chance.of(&[0, at]), b' '),
        7 => field.push(chance.of(b" \r\0")),
        8 => field.insert(at, stray),
        9 if at < field.len() => field[at] = stray,
        10 => *field = vec![if chance.percent(30) { chance.of(b"bcatrwiku") } else { stray }],
        11 => field.extend(run(chance)),
        _ => field.extend((0..2 + length(chance)).map(|_| chance.of(b"0123456789")).collect::<Vec<u8>>()),
    }
}

/// A number above the last job or the last cell, and mostly just above.
pub fn above(chance: &mut Chance, place: usize) -> u64 {
    let last = u64::from(if place == 1 { LAST_NUMBER } else { LAST_CELL });
    let past = chance.below(300) as u64;
    let far = chance.below(last as usize) as u64;
    chance.of(&[last + 1, last + 1, last + 2, last + 1 + past, last + 1 + far, 10 * last, 10 * last + 9])
}

/// Anything after the last field: tabs, fields, the same line once more.
pub fn put_more(chance: &mut Chance, fields: &mut Vec<Vec<u8>>) {
    match chance.below(8) {
        0 | 1 => fields.push(Vec::new()),
        2 => fields.push(chance.of(EDGE_NUMBERS).as_bytes().to_vec()),
        3 => fields.extend(vec![Vec::new(); length(chance)]),
        4 => fields.push(vec![chance.of(STRAY)]),
        5 => fields.push(run(chance)),
        6 => fields.extend(fields.clone()),
        _ => fields.push((0..chance.below(24)).map(|_| odd_byte(chance)).collect()),
    }
}

/// A run of one byte.
pub fn run(chance: &mut Chance) -> Vec<u8> {
    vec![chance.of(RUNNING); length(chance)]
}

/// How long a run is: mostly no longer than a good line can be, seldom far longer.
pub fn length(chance: &mut Chance) -> usize {
    match chance.below(20) {
        0..=8 => chance.between(1, 4),
        9..=15 => chance.between(4, 18),
        16..=18 => chance.between(19, 140),
        _ => chance.between(141, 1_400),
    }
}

/// Cuts or fills a line to a length about that of the longest good one, which has 15 bytes and its newline, or
/// to a longer one; and at times puts a stray byte or a tab at its byte 15, 16 or 17.
pub fn aim(chance: &mut Chance, line: &mut Vec<u8>) {
    let wanted = chance.of(&[13, 14, 15, 15, 16, 16, 17, 17, 18, 31, 32, 33, 63, 64, 65]);
    line.resize(wanted, chance.of(RUNNING));
    let at = chance.between(14, 16);
    if at < wanted && chance.percent(50) {
        line[at] = if chance.percent(30) { b'\t' } else { chance.of(STRAY) };
    }
}

/// What is left of a line that breaks off: before a tab, after one, at its end or anywhere.
pub fn broken_off(chance: &mut Chance, line: &[u8]) -> Vec<u8> {
    let tabs = (0..line.len()).filter(|&at| line[at] == b'\t');
    let mut stops: Vec<usize> = tabs.flat_map(|at| [at, at + 1]).collect();
    stops.push(line.len());
    let anywhere = chance.below(line.len() + 1);
    let at = if chance.percent(30) { anywhere } else { chance.of(&stops) };
    line[..at].to_vec()
}

/// The last line of a text that does not end in a newline: the given one, or now and then another, as it is,
/// broken off or with faults. It is never empty, or it would be no line.
pub fn torn_line(chance: &mut Chance, line: &[u8]) -> Vec<u8> {
    let line = if chance.percent(30) { good_line(chance) } else { line.to_vec() };
    let torn = match chance.below(4) {
        0 => line,
        1 | 2 => broken_off(chance, &line),
        _ => put_faults(chance, &line),
    };
    if torn.is_empty() {
        vec![odd_byte(chance)]
    } else {
        torn
    }
}
