//! The box on a table, with the store that is lent to its events, for the programs that play
//! histories.

use crate::setups::{recall, Store, BLOCK_LENGTH, PLACES, STORE_LENGTH};
use crate::state::{Refusal, State};
use crate::status::SetName;

/// The longest store that can be lent.
pub const LONGEST_STORE: usize = 8192;

pub struct Table {
    pub state: State,
    /// The store, and zeros after it for a store that is too long.
    memory: [u8; LONGEST_STORE],
    /// How many bytes of it the next event is lent.
    lent: usize,
}

impl Default for Table {
    fn default() -> Table {
        Table {
            state: State::power_up(),
            memory: [0; LONGEST_STORE],
            lent: STORE_LENGTH,
        }
    }
}

impl Table {
    /// Power-up is lent no store, so it uses up no length and the store outlives it.
    pub fn power_up(&mut self) {
        self.state = State::power_up();
    }

    /// The next event is lent a store of this length, up to [`LONGEST_STORE`], and only that one.
    pub fn lend(&mut self, length: usize) {
        self.lent = length;
    }

    fn lent(&mut self) -> (&mut State, &mut [u8]) {
        let length = std::mem::replace(&mut self.lent, STORE_LENGTH);
        (&mut self.state, &mut self.memory[..length])
    }

    pub fn piece(&mut self, bytes: &[u8]) -> Result<usize, Refusal> {
        let (state, store) = self.lent();
        state.piece(store, bytes)
    }

    pub fn take(&mut self, buffer: &mut [u8]) -> Result<usize, Refusal> {
        let (state, store) = self.lent();
        state.take(store, buffer)
    }

    pub fn condition(&mut self, name: SetName, value: u16) -> Result<(), Refusal> {
        let (state, store) = self.lent();
        state.condition(store, name, value)
    }

    pub fn look(&mut self) -> Result<u8, Refusal> {
        let (state, store) = self.lent();
        state.look(store)
    }

    fn store(&self) -> &Store {
        self.memory.first_chunk().expect("the memory is longer")
    }

    fn block(&mut self, place: usize) -> &mut [u8] {
        &mut self.memory[place * BLOCK_LENGTH..][..BLOCK_LENGTH]
    }

    /// Adds to one byte of a block, modulo 256.
    pub fn alter(&mut self, place: usize, byte: usize, value: u8) {
        let byte = &mut self.block(place)[byte];
        *byte = byte.wrapping_add(value);
    }

    pub fn zero(&mut self, place: usize) {
        self.block(place).fill(0);
    }

    pub fn copy(&mut self, from: usize, to: usize) {
        let start = from * BLOCK_LENGTH;
        let block = start..start + BLOCK_LENGTH;
        self.memory.copy_within(block, to * BLOCK_LENGTH);
    }

    /// Where *RCL would find a good block.
    pub fn recallable(&self) -> [bool; PLACES] {
        std::array::from_fn(|place| recall(self.store(), place).is_some())
    }
}
