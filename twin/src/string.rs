//! Strings (02, #109): what quotes do to separators, and the text that DISPlay:TEXT holds.

use crate::error::Error;

/// In bytes, after a doubled quote counts as one.
pub const TEXT_LIMIT: usize = 32;

pub const fn is_quote(byte: u8) -> bool {
    byte == b'"' || byte == b'\''
}

/// The length of the part before the first separator outside quotes, or of all. A quote byte
/// outside quotes opens one, which ends at the next of its kind; a doubled one closes and opens
/// again at once, and so separates nothing either.
pub fn part_length(separator: u8, text: &[u8]) -> usize {
    let mut open = None;
    for (place, &byte) in text.iter().enumerate() {
        match open {
            Some(quote) if byte == quote => open = None,
            Some(_) => {}
            None if byte == separator => return place,
            None if is_quote(byte) => open = Some(byte),
            None => {}
        }
    }
    text.len()
}

/// The text of the display: it ends before the first zero, and zeros fill the rest.
#[derive(Clone, Copy, Debug, PartialEq, Eq)]
pub struct Text {
    pub bytes: [u8; TEXT_LIMIT],
}

impl Text {
    pub const EMPTY: Text = Text {
        bytes: [0; TEXT_LIMIT],
    };

    pub fn shown(&self) -> &[u8] {
        let end = self.bytes.iter().position(|&byte| byte == 0);
        &self.bytes[..end.unwrap_or(TEXT_LIMIT)]
    }

    /// Its limits, for refusal 4 and for *RCL: bytes that a string may hold, then only zeros.
    #[inline]
    pub(crate) fn keeps_its_limits(&self) -> bool {
        *self == Text::EMPTY || self.is_shown_and_then_zeros()
    }

    /// Not inlined: every event asks, and the text is mostly empty.
    #[inline(never)]
    fn is_shown_and_then_zeros(&self) -> bool {
        let (shown, rest) = self.bytes.split_at(self.shown().len());
        shown.iter().all(|&byte| may_be_shown(byte)) && rest.iter().all(|&byte| byte == 0)
    }

    /// The string that is all of a parameter. -151, -150 and -223 are tested in this order, and
    /// any other parameter is -104.
    pub(crate) fn read(parameter: &[u8]) -> Result<Text, Error> {
        let [quote @ (b'"' | b'\''), inside @ ..] = parameter else {
            return Err(Error::DataTypeError);
        };
        if !is_closed_at_its_end(*quote, inside) {
            return Err(Error::InvalidStringData);
        }
        let mut text = Text::EMPTY;
        let mut length = 0;
        for byte in undoubled(*quote, inside) {
            if !may_be_shown(byte) {
                return Err(Error::StringDataError);
            }
            if let Some(place) = text.bytes.get_mut(length) {
                *place = byte;
            }
            length += 1;
        }
        if length > TEXT_LIMIT {
            return Err(Error::TooMuchData);
        }
        Ok(text)
    }
}

/// Printable, and none of the nine that source document 004 forbids in strings (3.1.7.11).
fn may_be_shown(byte: u8) -> bool {
    let forbidden = b"\\/:*?\"<>|";
    (32..=126).contains(&byte) && !forbidden.contains(&byte)
}

/// Whether the quote that is open before these bytes closes with the last of them, and for good.
fn is_closed_at_its_end(quote: u8, inside: &[u8]) -> bool {
    let mut rest = inside;
    loop {
        match rest {
            [] => return false,
            [byte] => return *byte == quote,
            [first, second, further @ ..] if *first == quote => {
                if *second != quote {
                    return false;
                }
                rest = further;
            }
            [_, further @ ..] => rest = further,
        }
    }
}

/// The bytes of a closed string, without the last quote and with each doubled one once.
fn undoubled(quote: u8, inside: &[u8]) -> impl Iterator<Item = u8> + '_ {
    let content = &inside[..inside.len() - 1];
    let mut skip = false;
    content.iter().copied().filter(move |&byte| {
        skip = byte == quote && !skip;
        !skip
    })
}
