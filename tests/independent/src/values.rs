//! Value spaces, and the order of the kinds that have one.

use crate::packed::Reader;

#[derive(Clone, Debug, PartialEq, Eq)]
pub enum Kind {
    Unsigned {
        bytes: u32,
    },
    Signed {
        bytes: u32,
    },
    Decimal {
        total: usize,
        after: usize,
        signed: bool,
    },
    Sequence,
    Datetime,
    Boolean,
    String {
        most: usize,
    },
    Hex {
        bytes: usize,
    },
}

impl Kind {
    pub fn read(reader: &mut Reader) -> Option<Self> {
        Some(match reader.number()? {
            1 => Kind::Unsigned {
                bytes: read_width(reader)?,
            },
            2 => Kind::Signed {
                bytes: read_width(reader)?,
            },
            3 => Kind::read_decimal(reader)?,
            4 => Kind::Decimal {
                total: 19,
                after: 4,
                signed: true,
            },
            5 => Kind::Sequence,
            6 => Kind::Datetime,
            7 => Kind::Boolean,
            8 => Kind::String {
                most: reader.count(1..=120)?,
            },
            9 => Kind::Hex {
                bytes: reader.count(1..=60)?,
            },
            _ => return None,
        })
    }

    fn read_decimal(reader: &mut Reader) -> Option<Self> {
        let total = reader.count(2..=38)?;
        let after = reader.count(1..=total - 1)?;
        let signed = reader.flag()?;
        Some(Kind::Decimal {
            total,
            after,
            signed,
        })
    }

    /// Can min and max choose among values of this kind?
    pub fn is_ordered(&self) -> bool {
        !matches!(self, Kind::Boolean | Kind::String { .. } | Kind::Hex { .. })
    }

    /// Is `value` in this kind's space?
    pub fn has(&self, value: &[u8]) -> bool {
        if !(1..=120).contains(&value.len()) {
            return false;
        }
        match *self {
            Kind::Unsigned { bytes } => is_unsigned(value, bytes),
            Kind::Signed { bytes } => is_signed(value, bytes),
            Kind::Decimal {
                total,
                after,
                signed,
            } => is_decimal(value, total - after, after, signed),
            Kind::Sequence => is_unsigned(value, 8),
            Kind::Datetime => is_datetime(value),
            Kind::Boolean => matches!(value, b"true" | b"false"),
            Kind::String { most } => value.len() <= most && std::str::from_utf8(value).is_ok(),
            Kind::Hex { bytes } => value.len() == 2 * bytes && value.iter().all(is_hex_digit),
        }
    }

    /// A number that rises as the values of an ordered kind do.
    ///
    /// All values of a decimal kind have the same digits after the point, so the digits alone
    /// order them; so do the digits of a datetime, once each has its six of the fraction.
    pub fn rank(&self, value: &[u8]) -> i128 {
        let digits = value.iter().filter(|byte| byte.is_ascii_digit());
        let size = digits.fold(0, |size, digit| size * 10 + i128::from(digit - b'0'));
        match self {
            Kind::Datetime if value.len() == WHOLE_SECONDS => size * 1_000_000,
            _ if value.starts_with(b"-") => -size,
            _ => size,
        }
    }
}

/// The length of a datetime without a fraction.
const WHOLE_SECONDS: usize = b"YYYY-MM-DDThh:mm:ssZ".len();

fn read_width(reader: &mut Reader) -> Option<u32> {
    let bytes = u32::try_from(reader.number()?).ok()?;
    matches!(bytes, 1 | 2 | 3 | 4 | 8).then_some(bytes)
}

/// Digits without a leading zero, but for a lone 0.
fn is_natural(digits: &[u8]) -> bool {
    match digits {
        [] => false,
        [b'0', rest @ ..] => rest.is_empty(),
        _ => digits.iter().all(u8::is_ascii_digit),
    }
}

/// The size that digits write, where 128 bits hold it.
fn size(digits: &[u8]) -> Option<u128> {
    let digits = std::str::from_utf8(digits).ok()?;
    digits.parse().ok()
}

fn is_unsigned(value: &[u8], bytes: u32) -> bool {
    is_natural(value) && size(value).is_some_and(|size| size < 1 << (8 * bytes))
}

fn is_signed(value: &[u8], bytes: u32) -> bool {
    let half = 1 << (8 * bytes - 1);
    match value.strip_prefix(b"-") {
        Some(digits) => {
            is_natural(digits) && size(digits).is_some_and(|size| (1..=half).contains(&size))
        }
        None => is_natural(value) && size(value).is_some_and(|size| size < half),
    }
}

fn is_decimal(value: &[u8], most_before: usize, after: usize, signed: bool) -> bool {
    let (is_negative, digits) = match value.strip_prefix(b"-") {
        Some(digits) => (true, digits),
        None => (false, value),
    };
    let Some((before, [b'.', fraction @ ..])) = digits
        .len()
        .checked_sub(after + 1)
        .map(|point| digits.split_at(point))
    else {
        return false;
    };
    let is_zero = before == b"0" && fraction.iter().all(|digit| *digit == b'0');
    is_natural(before)
        && before.len() <= most_before
        && fraction.iter().all(u8::is_ascii_digit)
        && (!is_negative || signed && !is_zero)
}

fn is_hex_digit(byte: &u8) -> bool {
    matches!(byte, b'0'..=b'9' | b'a'..=b'f')
}

fn is_datetime(value: &[u8]) -> bool {
    let Some((seconds, fraction)) = value.split_at_checked(WHOLE_SECONDS - 1) else {
        return false;
    };
    is_pattern(seconds, b"dddd-dd-ddTdd:dd:dd") && is_instant(seconds) && is_fraction(fraction)
}

/// Is `value` the pattern, with a digit for each d?
fn is_pattern(value: &[u8], pattern: &[u8]) -> bool {
    value.len() == pattern.len()
        && value.iter().zip(pattern).all(|(byte, expected)| {
            if *expected == b'd' {
                byte.is_ascii_digit()
            } else {
                byte == expected
            }
        })
}

/// Do the fields of YYYY-MM-DDThh:mm:ss name a second of the Gregorian calendar?
fn is_instant(seconds: &[u8]) -> bool {
    let field = |from: usize, to: usize| {
        let digits = seconds[from..to].iter();
        digits.fold(0, |field, digit| field * 10 + u32::from(digit - b'0'))
    };
    let (year, month, day) = (field(0, 4), field(5, 7), field(8, 10));
    year >= 1
        && (1..=12).contains(&month)
        && (1..=days(year, month)).contains(&day)
        && field(11, 13) <= 23
        && field(14, 16) <= 59
        && field(17, 19) <= 59
}

fn days(year: u32, month: u32) -> u32 {
    let is_leap = year.is_multiple_of(4) && (!year.is_multiple_of(100) || year.is_multiple_of(400));
    match month {
        4 | 6 | 9 | 11 => 30,
        2 if is_leap => 29,
        2 => 28,
        _ => 31,
    }
}

/// A fraction of zero is written by leaving it out, so that equal instants have equal bytes.
fn is_fraction(fraction: &[u8]) -> bool {
    fraction == b"Z" || (is_pattern(fraction, b".ddddddZ") && fraction != b".000000Z")
}

#[cfg(test)]
mod tests {
    use super::*;

    #[test]
    fn integers_stay_inside_their_width() {
        let signed = Kind::Signed { bytes: 1 };
        assert!(signed.has(b"-128"));
        assert!(!signed.has(b"-129") && !signed.has(b"-0"));
        let unsigned = Kind::Unsigned { bytes: 3 };
        assert!(unsigned.has(b"16777215"));
        assert!(!unsigned.has(b"16777216"));
    }

    #[test]
    fn decimals_have_their_digits() {
        let decimal = Kind::Decimal {
            total: 7,
            after: 2,
            signed: true,
        };
        assert!(decimal.has(b"12345.60"));
        assert!(!decimal.has(b"123456.00") && !decimal.has(b"0.5") && !decimal.has(b"-0.00"));
    }

    #[test]
    fn leap_years_are_gregorian() {
        assert!(Kind::Datetime.has(b"2000-02-29T00:00:00Z"));
        assert!(!Kind::Datetime.has(b"1900-02-29T00:00:00Z"));
    }

    #[test]
    fn a_fraction_is_later_than_its_whole_second() {
        let whole = Kind::Datetime.rank(b"2024-03-01T10:00:21Z");
        assert!(Kind::Datetime.rank(b"2024-03-01T10:00:21.500000Z") > whole);
    }
}
