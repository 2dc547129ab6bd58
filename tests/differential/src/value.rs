//! Values of every kind, inside their spaces and likely outside.

use crate::random::Random;

/// The number of a kind, and its parameters, as a table has them.
pub fn random_kind(random: &mut Random) -> Vec<u64> {
    let width = *random.pick(&[1, 2, 3, 4, 8]);
    match random.between(1, 9) as u64 {
        kind @ 1..=2 => vec![kind, width],
        3 => {
            let total = random.between(2, 38);
            let after = random.between(1, total - 1);
            vec![3, total as u64, after as u64, random.below(2) as u64]
        }
        8 => vec![8, *random.pick(&[1, 2, 10, 40, 120])],
        9 => vec![9, *random.pick(&[1, 4, 20, 60])],
        kind => vec![kind],
    }
}

/// Can min and max choose among values of this kind?
pub fn is_ordered(kind: &[u64]) -> bool {
    kind[0] <= 6
}

/// A value inside the space of a kind.
pub fn random_value(random: &mut Random, kind: &[u64]) -> Vec<u8> {
    match *kind {
        [1, width] => random.number_of_bits(8 * width as usize).to_string().into(),
        [2, width] => signed(random, 8 * width as usize - 1).to_string().into(),
        [3, total, after, signed] => decimal(random, total - after, after, signed == 1),
        [4] => decimal(random, 15, 4, true),
        [5] => random.number_of_bits(64).to_string().into(),
        [6] => datetime(random),
        [7] => Vec::from(*random.pick(&["true", "false"])),
        [8, most] => string(random, most as usize),
        [9, bytes] => hex(random, bytes as usize),
        _ => unreachable!("no such kind: {kind:?}"),
    }
}

/// From -2^bits to 2^bits - 1.
fn signed(random: &mut Random, bits: usize) -> i128 {
    let size = i128::from(random.number_of_bits(bits));
    if random.one_in(2) {
        -size - 1
    } else {
        size
    }
}

fn decimal(random: &mut Random, most_before: u64, after: u64, signed: bool) -> Vec<u8> {
    let mut value: Vec<u8> = Vec::new();
    let before = random.between(1, most_before as usize);
    value.extend((0..before).map(|_| digit(random)));
    let zeros = value.iter().take_while(|digit| **digit == b'0').count();
    value.drain(..zeros.min(before - 1));
    value.push(b'.');
    value.extend((0..after).map(|_| digit(random)));
    let is_zero = !value.iter().any(|byte| matches!(byte, b'1'..=b'9'));
    if signed && !is_zero && random.one_in(2) {
        value.insert(0, b'-');
    }
    value
}

/// Mostly 0 and 9, so that edges and equal sizes come up.
fn digit(random: &mut Random) -> u8 {
    *random.pick(b"000099912345678")
}

fn datetime(random: &mut Random) -> Vec<u8> {
    let year = *random.pick(&[1, 1900, 1999, 2000, 2023, 2024, 9999]);
    let month = random.between(1, 12);
    // Each month has these; the days after them are among the edges.
    let day = random.between(1, 28);
    let hour = *random.pick(&[0, 9, 10, 23]);
    let [minute, second] = [0; 2].map(|_: i32| *random.pick(&[0, 30, 59]));
    let whole = format!("{year:04}-{month:02}-{day:02}T{hour:02}:{minute:02}:{second:02}");
    let fraction = match random.below(3) {
        0 => format!(".{:06}", random.between(1, 999_999)),
        _ => String::new(),
    };
    format!("{whole}{fraction}Z").into()
}

fn string(random: &mut Random, most: usize) -> Vec<u8> {
    let characters = ["a", "b", ":", "\0", "\u{7f}", "é", "€", "\u{ffff}", "𝄞"];
    let length = random.between(1, most);
    let mut text = String::from(*random.pick(&characters[..5]));
    while text.len() < length {
        text += *random.pick(&characters);
    }
    while text.len() > most {
        text.pop();
    }
    text.into()
}

fn hex(random: &mut Random, bytes: usize) -> Vec<u8> {
    (0..2 * bytes)
        .map(|_| *random.pick(b"0123456789abcdef"))
        .collect()
}

/// A value like `value`, but likely outside its space.
pub fn spoil(random: &mut Random, value: &[u8]) -> Vec<u8> {
    let mut spoilt = value.to_vec();
    let place = random.below(value.len().max(1));
    let odd = *random.pick(b"019-+.:TZ aAgz\0\x80\xC0\xED\xF4\xFF");
    match random.below(8) {
        0 => spoilt.clear(),
        1 => spoilt.resize(random.between(119, 123), b'1'),
        2 => spoilt.push(odd),
        3 => spoilt.insert(0, odd),
        4 => spoilt.insert(place, odd),
        5 => spoilt.truncate(place),
        _ if value.is_empty() => spoilt.push(odd),
        _ => spoilt[place] = odd,
    }
    spoilt
}
