//! Saved setups (02, #108): a lent store of ten blocks of 512 bytes.
//!
//! A block begins with the mark, two bytes 255 (#111). From byte 2 it holds each setting's value +
//! 256 in two bytes, low byte first, in the record's order; then the text's 32 bytes (#109), zeros
//! after the text; then zeros; and in the last four bytes its check, low byte first.
//!
//! An older block has no mark, and its values, those of channel 1 and the single ones, begin at
//! byte 0. There the output's state stands, as 0 or 1 and 256: no older block carries the mark.

use crate::settings::{Settings, SETTINGS, SETTINGS_OF_ONE};
use crate::string::{Text, TEXT_LIMIT};

pub const PLACES: usize = 10;
pub const BLOCK_LENGTH: usize = 512;
pub const STORE_LENGTH: usize = PLACES * BLOCK_LENGTH;

/// The check is over as many bytes and stands after them.
const CHECKED_LENGTH: usize = 508;

const MARK: [u8; 2] = [255, 255];

/// What is added to a value, so that none is below zero.
const OFFSET: i32 = 256;

pub type Store = [u8; STORE_LENGTH];

fn bytes_of(place: usize) -> std::ops::Range<usize> {
    place * BLOCK_LENGTH..(place + 1) * BLOCK_LENGTH
}

/// *SAV: writes the block of a place, from 0 to 9, and no other.
pub(crate) fn save(settings: &Settings, store: &mut Store, place: usize) {
    let block = &mut store[bytes_of(place)];
    block.fill(0);
    block[..MARK.len()].copy_from_slice(&MARK);
    let (values, rest) = block[MARK.len()..].split_at_mut(2 * SETTINGS);
    for (stored, value) in values.chunks_exact_mut(2).zip(settings.values) {
        stored.copy_from_slice(&((value + OFFSET) as u16).to_le_bytes());
    }
    rest[..TEXT_LIMIT].copy_from_slice(&settings.text.bytes);
    let check = check(block);
    block[CHECKED_LENGTH..].copy_from_slice(&check.to_le_bytes());
}

/// *RCL: the settings in the block of a place, from 0 to 9, if its check holds and they keep their
/// limits and the range. A block of zeros is none: each value would be -256.
pub(crate) fn recall(store: &Store, place: usize) -> Option<Settings> {
    let block = &store[bytes_of(place)];
    if check(block).to_le_bytes() != block[CHECKED_LENGTH..] {
        return None;
    }
    let settings = match block.strip_prefix(&MARK) {
        Some(marked) => read(marked, SETTINGS),
        None => read(block, SETTINGS_OF_ONE),
    };
    settings.keep_their_limits().then_some(settings)
}

/// So many values from the start and then the text; the further settings are at their reset. A
/// block of #108 has zeros in the text's place, which are the empty text.
fn read(bytes: &[u8], count: usize) -> Settings {
    let mut settings = Settings::reset();
    let (values, rest) = bytes.split_at(2 * count);
    for (value, stored) in settings.values.iter_mut().zip(values.chunks_exact(2)) {
        *value = i32::from(stored[0]) + 256 * i32::from(stored[1]) - OFFSET;
    }
    let mut text = Text::EMPTY;
    text.bytes.copy_from_slice(&rest[..TEXT_LIMIT]);
    Settings { text, ..settings }
}

/// The sum of the byte times its place, counted from 1.
fn check(block: &[u8]) -> u32 {
    let checked = block[..CHECKED_LENGTH].iter();
    checked
        .zip(1..)
        .map(|(&byte, place)| u32::from(byte) * place)
        .sum()
}
