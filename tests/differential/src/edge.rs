//! Values at the edges of each kind's space, on either side of them.

use crate::random::Random;

/// Kinds with the least and the most that a table can set.
pub const KINDS: &[&[u64]] = &[
    &[1, 1],
    &[1, 2],
    &[1, 3],
    &[1, 4],
    &[1, 8],
    &[2, 1],
    &[2, 2],
    &[2, 3],
    &[2, 4],
    &[2, 8],
    &[3, 2, 1, 0],
    &[3, 2, 1, 1],
    &[3, 7, 2, 0],
    &[3, 7, 2, 1],
    &[3, 38, 1, 1],
    &[3, 38, 37, 1],
    &[4],
    &[5],
    &[6],
    &[7],
    &[8, 1],
    &[8, 4],
    &[8, 120],
    &[9, 1],
    &[9, 20],
    &[9, 60],
];

/// The values next to an edge.
#[derive(Default)]
pub struct Edges {
    pub inside: Vec<Vec<u8>>,
    pub outside: Vec<Vec<u8>>,
}

impl Edges {
    pub fn of(kind: &[u64]) -> Self {
        match *kind {
            [1, width] => unsigned(8 * width),
            [2, width] => signed(8 * width - 1),
            [3, total, after, signed] => decimal((total - after) as usize, after as usize, signed),
            [4] => decimal(15, 4, 1),
            [5] => unsigned(64),
            [6] => datetime(),
            [7] => Edges::default()
                .with_inside(["true", "false"])
                .with_outside(["", "0", "1", "True", "FALSE", "tru", "truee", "false "]),
            [8, most] => string(most as usize),
            [9, bytes] => hex(bytes as usize),
            _ => unreachable!("no such kind: {kind:?}"),
        }
    }

    /// A value on either side.
    pub fn pick(&self, random: &mut Random) -> &Vec<u8> {
        match random.below(3) {
            0 => random.pick(&self.inside),
            _ => random.pick(&self.outside),
        }
    }

    fn with_inside<V: Into<Vec<u8>>>(mut self, values: impl IntoIterator<Item = V>) -> Self {
        self.inside.extend(values.into_iter().map(Into::into));
        self
    }

    fn with_outside<V: Into<Vec<u8>>>(mut self, values: impl IntoIterator<Item = V>) -> Self {
        self.outside.extend(values.into_iter().map(Into::into));
        self
    }
}

/// From 0 to 2^bits - 1.
fn unsigned(bits: u64) -> Edges {
    let limit = 1_u128 << bits;
    // What 64 or 128 bits would take for a small number.
    let past_words = [
        "18446744073709551617",
        "340282366920938463463374607431768211457",
    ];
    Edges::default()
        .with_inside([0, 1, 9, 10, limit - 1].map(|number| number.to_string()))
        .with_outside([limit, limit + 1, 10 * limit].map(|number| number.to_string()))
        .with_outside(past_words)
        .with_outside(["", "-", "-0", "-1", "+1", "00", "01", "1.0", " 1", "1a"])
}

/// From -2^bits to 2^bits - 1.
fn signed(bits: u64) -> Edges {
    let limit = 1_i128 << bits;
    Edges::default()
        .with_inside([0, 1, -1, 9, -10, limit - 1, -limit].map(|number| number.to_string()))
        .with_outside([limit, -limit - 1, 10 * limit, -10 * limit].map(|number| number.to_string()))
        .with_outside(["18446744073709551617", "-18446744073709551617"])
        .with_outside(["", "-", "-0", "--1", "+1", "00", "01", "-01", "1.0"])
}

fn decimal(before: usize, after: usize, signed: u64) -> Edges {
    let nines = "9".repeat(before);
    let zero = "0".repeat(after);
    let last = "9".repeat(after);
    let least = format!("0.{}1", &zero[1..]);
    let positive = [&least, &format!("1.{zero}"), &format!("{nines}.{last}")];
    let negative = positive.map(|value| format!("-{value}"));
    let all = Edges::default()
        .with_inside([format!("0.{zero}")])
        .with_inside(positive.map(String::as_str))
        .with_outside([
            format!("-0.{zero}"),
            format!("1{nines}.{last}"),
            format!("-1{nines}.{last}"),
            format!("1.{zero}0"),
            format!("1.{}", &zero[1..]),
            format!("00.{zero}"),
            format!("01.{zero}"),
            format!("-01.{zero}"),
            format!(".{zero}"),
            format!("-.{zero}"),
            format!("+1.{zero}"),
            format!("1,{zero}"),
            format!("10{zero}"),
            "1".into(),
            "".into(),
        ]);
    if signed == 1 {
        all.with_inside(negative)
    } else {
        all.with_outside(negative)
    }
}

/// The days next to the ends of months and years.
fn days() -> Edges {
    let noon =
        |year: u32, month: usize, day: u32| format!("{year:04}-{month:02}-{day:02}T12:00:00Z");
    let lasts = [31, 28, 31, 30, 31, 30, 31, 31, 30, 31, 30, 31];
    let ends = || (1..).zip(lasts);
    Edges::default()
        .with_inside(ends().map(|(month, last)| noon(2023, month, last)))
        .with_outside(ends().map(|(month, last)| noon(2023, month, last + 1)))
        .with_outside([
            noon(2023, 1, 0),
            noon(2023, 0, 1),
            noon(2023, 13, 1),
            noon(0, 1, 1),
        ])
        .with_inside([4, 2000, 2024].map(|year| noon(year, 2, 29)))
        .with_outside([1, 1900, 2023, 2100].map(|year| noon(year, 2, 29)))
        .with_outside([noon(2024, 2, 30), noon(10_000, 1, 1)])
}

fn datetime() -> Edges {
    days()
        .with_inside([
            "0001-01-01T00:00:00Z",
            "9999-12-31T23:59:59.999999Z",
            "2024-02-29T23:59:59Z",
            "2024-02-29T23:59:59.000001Z",
            "2024-02-29T23:59:59.100000Z",
            "2024-02-29T23:59:59.999999Z",
            "2024-03-01T00:00:00Z",
            "2024-03-01T00:00:00.000001Z",
        ])
        .with_outside([
            "",
            "2024-02-29",
            "2024-02-29T24:00:00Z",
            "2024-02-29T23:60:00Z",
            "2024-02-29T23:59:60Z",
            "2024-02-29T23:59:59",
            "2024-02-29T23:59:59z",
            "2024-02-29 23:59:59Z",
            "2024-02-29T23:59:59+00:00",
            "2024-02-29T23:59:59.Z",
            "2024-02-29T23:59:59.000000Z",
            "2024-02-29T23:59:59.00001Z",
            "2024-02-29T23:59:59.0000001Z",
            "2024-02-29T23:59:59.000001",
            "2024-02-29T23:59:59,000001Z",
            "-024-02-29T23:59:59Z",
        ])
}

fn string(most: usize) -> Edges {
    // The first and the last characters of each length in UTF-8, and those beside the surrogates.
    let characters = "\0\u{7f}\u{80}\u{7ff}\u{800}\u{d7ff}\u{e000}\u{ffff}\u{10000}\u{10ffff}";
    let (short, long): (Vec<_>, Vec<_>) = characters
        .chars()
        .map(String::from)
        .partition(|character| character.len() <= most);
    Edges::default()
        .with_inside(["a".repeat(most)])
        .with_inside(short)
        .with_outside(long)
        .with_outside(["a".repeat(most + 1), "a".repeat(121), "".into()])
        .with_outside([
            &b"\x80"[..],
            b"\xC3",
            b"\xC1\xBF",
            b"\xE2\x82",
            b"\xE0\x9F\xBF",
            b"\xED\xA0\x80",
            b"\xF0\x8F\xBF\xBF",
            b"\xF4\x90\x80\x80",
            b"\xFF",
        ])
}

fn hex(bytes: usize) -> Edges {
    let all = |digit: &str| digit.repeat(2 * bytes);
    let begin = "0".repeat(2 * bytes - 1);
    Edges::default()
        .with_inside(["0", "9", "a", "f"].map(all))
        .with_outside(["A", "F", "g"].map(all))
        .with_outside(["", "00", "/", ":", "`", "G"].map(|end| format!("{begin}{end}")))
        .with_outside([&begin[1..]])
}
