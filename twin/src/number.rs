//! Reading, rounding and writing numbers, in integers throughout.

use std::cmp::Ordering;

use crate::error::Error;
use crate::text::skip_white_space;

/// 01, check 6.
const MOST_DIGITS: usize = 12;
const LARGEST_EXPONENT: u32 = 9;

/// What a row's numbers are rounded to, and counted in.
#[derive(Clone, Copy, Debug, PartialEq, Eq)]
pub enum Step {
    One,
    Tenth,
}

impl Step {
    fn decimals(self) -> i64 {
        match self {
            Step::One => 0,
            Step::Tenth => 1,
        }
    }
}

/// What a row's numbers measure, and so which suffixes they may carry (02, #101).
#[derive(Clone, Copy, Debug, PartialEq, Eq)]
pub enum Quantity {
    Voltage,
    Current,
    Frequency,
    Time,
}

/// A suffix in capitals, and the power of ten that it stands for.
type Suffix = (&'static str, i64);

impl Quantity {
    /// M is milli, but MHZ is mega (IEEE 488.2).
    fn suffixes(self) -> &'static [Suffix] {
        match self {
            Quantity::Voltage => &[("V", 0), ("MV", -3)],
            Quantity::Current => &[("A", 0), ("MA", -3)],
            Quantity::Frequency => &[("HZ", 0), ("KHZ", 3), ("MHZ", 6)],
            Quantity::Time => &[("S", 0)],
        }
    }
}

/// An exact decimal value: `digits` times ten to the `power`, below zero if `negative`.
#[derive(Clone, Copy, Debug, PartialEq, Eq)]
pub struct Decimal {
    negative: bool,
    digits: u64,
    power: i64,
}

/// A value rounded to a step, and what became of it by that (02, #107).
#[derive(Clone, Copy, Debug, PartialEq, Eq)]
pub struct Rounded {
    pub steps: i64,
    /// How the exact value compares with the rounded one: on the step, below it or above it.
    pub side: Ordering,
}

static POWERS_OF_TEN: [u64; MOST_DIGITS + 1] = powers_of_ten();

const fn powers_of_ten() -> [u64; MOST_DIGITS + 1] {
    let mut powers = [1; MOST_DIGITS + 1];
    let mut place = 1;
    while place < powers.len() {
        powers[place] = 10 * powers[place - 1];
        place += 1;
    }
    powers
}

impl Decimal {
    /// 01, check 7: rounded to the step, halves away from zero, and counted in steps.
    pub fn in_steps(self, step: Step) -> Rounded {
        let power = self.power + step.decimals();
        let (size, side) = if power >= 0 {
            let size = scale_up(self.digits, power.unsigned_abs());
            (size, Ordering::Equal)
        } else {
            scale_down(self.digits, power.unsigned_abs())
        };
        let steps = i64::try_from(size).unwrap_or(i64::MAX);
        if self.negative {
            Rounded {
                steps: -steps,
                side: side.reverse(),
            }
        } else {
            Rounded { steps, side }
        }
    }
}

/// A product too large for 64 bits stays far outside every limit of 01, so it may saturate.
fn scale_up(digits: u64, power: u64) -> u64 {
    let factor = POWERS_OF_TEN.get(power as usize);
    digits.saturating_mul(*factor.unwrap_or(&u64::MAX))
}

/// The rounded quotient, and how the exact one compares with it.
fn scale_down(digits: u64, power: u64) -> (u64, Ordering) {
    match POWERS_OF_TEN.get(power as usize) {
        Some(divisor) => {
            let rounded = (digits + divisor / 2) / divisor;
            (rounded, digits.cmp(&(rounded * divisor)))
        }
        // Twelve digits are less than a tenth of that divisor.
        None => (0, digits.cmp(&0)),
    }
}

/// 01, check 6, over the whole text of a parameter, on a row that carries this quantity or none.
pub fn read(text: &[u8], quantity: Option<Quantity>) -> Result<Decimal, Error> {
    let (negative, text) = read_sign(text);
    let (mantissa, text) = read_mantissa(text).ok_or(Error::InvalidCharacterInNumber)?;
    let (exponent, text) = read_exponent(text);
    let scale = read_suffix(skip_white_space(text), quantity)?;
    if mantissa.significant > MOST_DIGITS {
        return Err(Error::TooManyDigits);
    }
    if exponent.size > LARGEST_EXPONENT {
        return Err(Error::ExponentTooLarge);
    }
    Ok(Decimal {
        negative,
        digits: mantissa.digits,
        power: exponent.value() - mantissa.decimals as i64 + scale,
    })
}

fn read_sign(text: &[u8]) -> (bool, &[u8]) {
    match text {
        [b'-', rest @ ..] => (true, rest),
        [b'+', rest @ ..] => (false, rest),
        _ => (false, text),
    }
}

struct Mantissa {
    /// The value of the first twelve digits after the leading zeros.
    digits: u64,
    /// How many digits follow the leading zeros, across the point.
    significant: usize,
    /// How many digits follow the point.
    decimals: usize,
}

/// The longest start of the text that is digits with an optional point, if it has a digit.
fn read_mantissa(text: &[u8]) -> Option<(Mantissa, &[u8])> {
    let mut digits = 0;
    let mut significant = 0;
    let mut point = None;
    let mut length = 0;
    for &byte in text {
        match byte {
            b'0'..=b'9' => {
                let digit = byte - b'0';
                if digit != 0 || significant != 0 {
                    significant += 1;
                    if significant <= MOST_DIGITS {
                        digits = 10 * digits + digit as u64;
                    }
                }
            }
            b'.' if point.is_none() => point = Some(length),
            _ => break,
        }
        length += 1;
    }
    let decimals = point.map_or(0, |point| length - point - 1);
    let all_digits = length - point.map_or(0, |_| 1);
    let mantissa = Mantissa {
        digits,
        significant,
        decimals,
    };
    (all_digits > 0).then_some((mantissa, &text[length..]))
}

struct Exponent {
    negative: bool,
    /// Never counted further than is needed to tell that it is too large.
    size: u32,
}

impl Exponent {
    const NONE: Exponent = Exponent {
        negative: false,
        size: 0,
    };

    fn value(&self) -> i64 {
        if self.negative {
            -i64::from(self.size)
        } else {
            i64::from(self.size)
        }
    }
}

/// The exponent at the start of the text; without a digit in it there is none and nothing is read.
fn read_exponent(text: &[u8]) -> (Exponent, &[u8]) {
    let [b'E' | b'e', after_letter @ ..] = text else {
        return (Exponent::NONE, text);
    };
    let (negative, digits) = read_sign(after_letter);
    let mut size = 0;
    let mut length = 0;
    while let Some(byte @ b'0'..=b'9') = digits.get(length) {
        size = (10 * size + u32::from(byte - b'0')).min(LARGEST_EXPONENT + 1);
        length += 1;
    }
    if length == 0 {
        return (Exponent::NONE, text);
    }
    (Exponent { negative, size }, &digits[length..])
}

/// The power of ten that all of the text after a number stands for.
fn read_suffix(text: &[u8], quantity: Option<Quantity>) -> Result<i64, Error> {
    match (text.first(), quantity) {
        (None, _) => Ok(0),
        (Some(byte), _) if !byte.is_ascii_alphabetic() => Err(Error::InvalidCharacterInNumber),
        (Some(_), None) => Err(Error::SuffixNotAllowed),
        (Some(_), Some(quantity)) => {
            let mut suffixes = quantity.suffixes().iter();
            let meant = suffixes.find(|(name, _)| name.as_bytes().eq_ignore_ascii_case(text));
            meant.map(|&(_, power)| power).ok_or(Error::InvalidSuffix)
        }
    }
}

/// A number written for an answer: plain, or with one decimal for step 0.1.
pub struct Written {
    bytes: [u8; Written::LONGEST],
    start: usize,
}

impl Written {
    /// `-214748364.8`.
    const LONGEST: usize = 12;

    pub fn new(steps: i32, step: Step) -> Written {
        let mut written = Written {
            bytes: [0; Written::LONGEST],
            start: Written::LONGEST,
        };
        let mut rest = steps.unsigned_abs();
        if step == Step::Tenth {
            written.put(b'0' + (rest % 10) as u8);
            written.put(b'.');
            rest /= 10;
        }
        loop {
            written.put(b'0' + (rest % 10) as u8);
            rest /= 10;
            if rest == 0 {
                break;
            }
        }
        if steps < 0 {
            written.put(b'-');
        }
        written
    }

    fn put(&mut self, byte: u8) {
        self.start -= 1;
        self.bytes[self.start] = byte;
    }

    pub fn text(&self) -> &[u8] {
        &self.bytes[self.start..]
    }
}

#[cfg(test)]
mod tests {
    use super::*;

    #[test]
    fn the_side_of_the_exact_value() {
        use Ordering::{Equal, Greater, Less};
        let small = ".".to_string() + &"0".repeat(400) + "1";
        let values = [
            ("7.3", Step::Tenth, 73, Equal),
            ("7.25", Step::Tenth, 73, Less),
            ("7.24", Step::Tenth, 72, Greater),
            ("-0.5", Step::Tenth, -5, Equal),
            ("-0.45", Step::Tenth, -5, Greater),
            ("-0.44", Step::Tenth, -4, Less),
            ("5.10000000000", Step::Tenth, 51, Equal),
            ("5.10000000001", Step::Tenth, 51, Greater),
            ("51E-1", Step::Tenth, 51, Equal),
            ("51E-1", Step::One, 5, Greater),
            ("9.5", Step::One, 10, Less),
            ("-9.5", Step::One, -10, Greater),
            ("1E9", Step::One, 1_000_000_000, Equal),
            ("0", Step::One, 0, Equal),
            ("-0", Step::Tenth, 0, Equal),
            ("0E-9", Step::Tenth, 0, Equal),
            ("1E-9", Step::Tenth, 0, Greater),
            ("-1E-9", Step::One, 0, Less),
            (&small, Step::Tenth, 0, Greater),
        ];
        for (text, step, steps, side) in values {
            let rounded = read(text.as_bytes(), None).unwrap().in_steps(step);
            assert_eq!(rounded, Rounded { steps, side }, "{text}");
        }
    }

    #[test]
    fn the_side_of_the_exact_scaled_value() {
        use Ordering::{Equal, Greater, Less};
        let values = [
            ("5100 MV", Quantity::Voltage, 51, Equal),
            ("5050mv", Quantity::Voltage, 51, Less),
            ("-449 MA", Quantity::Current, -4, Less),
            ("-450 MA", Quantity::Current, -5, Greater),
            ("0.0601 KHZ", Quantity::Frequency, 601, Equal),
            ("0.06014kHz", Quantity::Frequency, 601, Greater),
            ("1E-6 mhz", Quantity::Frequency, 10, Equal),
            ("1E-9MV", Quantity::Voltage, 0, Greater),
        ];
        for (text, quantity, steps, side) in values {
            let value = read(text.as_bytes(), Some(quantity)).unwrap();
            let rounded = value.in_steps(Step::Tenth);
            assert_eq!(rounded, Rounded { steps, side }, "{text}");
        }
    }
}
