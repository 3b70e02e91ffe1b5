//! The status registers and the error queue.

use crate::error::{self, Error};

pub const QUEUE_LIMIT: usize = 16;

const POWER_ON: u16 = 1 << 7;
const OPERATION_COMPLETE: u16 = 1;
const DEVICE_ERROR: u16 = 1 << 3;
const SUMMARY: u16 = 1 << 6;

/// 01, refusal 4: the widths of the registers.
const EIGHT_BITS: u16 = 255;
pub const FIFTEEN_BITS: u16 = 32_767;

/// The register sets: STATus:OPERation of 01, STATus:LOCK and STATus:WARNing of 02, #104.
#[derive(Clone, Copy, Debug, PartialEq, Eq)]
pub enum SetName {
    Operation,
    Lock,
    Warning,
}

impl SetName {
    pub const ALL: [SetName; 3] = [SetName::Operation, SetName::Lock, SetName::Warning];

    /// Where the set's summary stands in the status byte: for lock and warning, Table 2.1 of
    /// source document 000 decides.
    fn summary_bit(self) -> u16 {
        match self {
            SetName::Operation => 7,
            SetName::Lock => 0,
            SetName::Warning => 1,
        }
    }
}

/// The registers of one set: condition, event, enable and the two transition filters.
#[derive(Clone, Debug, PartialEq, Eq)]
pub struct RegisterSet {
    pub condition: u16,
    pub event: u16,
    pub enable: u16,
    pub ptr: u16,
    pub ntr: u16,
}

impl RegisterSet {
    const POWER_UP: RegisterSet = RegisterSet {
        condition: 0,
        event: 0,
        enable: 0,
        ptr: FIFTEEN_BITS,
        ntr: 0,
    };

    /// 01, refusal 4: whether no register is above its width.
    fn keeps_its_width(&self) -> bool {
        self.condition | self.event | self.enable | self.ptr | self.ntr <= FIFTEEN_BITS
    }

    /// An event bit is set when its condition bit rises and PTR has it, or falls and NTR has it.
    fn report_condition(&mut self, value: u16) {
        let rises = value & !self.condition;
        let falls = self.condition & !value;
        self.event |= rises & self.ptr | falls & self.ntr;
        self.condition = value;
    }

    fn has_enabled_event(&self) -> bool {
        self.event & self.enable != 0
    }
}

#[derive(Clone, Debug, PartialEq, Eq)]
pub struct Status {
    /// The event status register, what *ESR? reads.
    pub esr: u16,
    /// What *ESE enables of it.
    pub ese: u16,
    /// What *SRE enables of the status byte.
    pub sre: u16,
    /// In the order of [`SetName`].
    pub sets: [RegisterSet; 3],
    /// How many errors wait.
    pub queued: usize,
    /// Their numbers without the minus, oldest first.
    pub errors: [u16; QUEUE_LIMIT],
}

impl Status {
    pub(crate) const fn power_up() -> Status {
        Status {
            esr: POWER_ON,
            ese: 0,
            sre: 0,
            sets: [RegisterSet::POWER_UP; 3],
            queued: 0,
            errors: [0; QUEUE_LIMIT],
        }
    }

    pub fn set(&self, name: SetName) -> &RegisterSet {
        &self.sets[name as usize]
    }

    pub fn set_mut(&mut self, name: SetName) -> &mut RegisterSet {
        &mut self.sets[name as usize]
    }

    /// 02, #105: whether any lock condition bit is 1.
    pub(crate) fn is_locked(&self) -> bool {
        self.set(SetName::Lock).condition != 0
    }

    /// 01, refusal 4, as far as it concerns registers and queue.
    pub(crate) fn could_be_the_boxs(&self) -> bool {
        let eight = self.esr | self.ese | self.sre;
        eight <= EIGHT_BITS
            && self.sets.iter().all(RegisterSet::keeps_its_width)
            && self.sre & SUMMARY == 0
            && self.queue_could_be_the_boxs()
    }

    fn queue_could_be_the_boxs(&self) -> bool {
        match self.errors.get(..self.queued) {
            Some(waiting) => waiting
                .iter()
                .fold(true, |good, &number| good & error::is_of_the_paper(number)),
            None => false,
        }
    }

    pub(crate) fn raise(&mut self, error: Error) {
        self.esr |= error.event_bit();
        if self.queued < QUEUE_LIMIT {
            self.errors[self.queued] = error.number();
            self.queued += 1;
        } else {
            self.errors[QUEUE_LIMIT - 1] = Error::QueueOverflow.number();
            self.esr |= DEVICE_ERROR;
        }
    }

    /// The answer to SYSTem:ERRor?; the entry stays until it is removed.
    pub(crate) fn oldest_error(&self) -> &'static str {
        match self.queued {
            0 => error::NO_ERROR,
            _ => error::answer(self.errors[0]),
        }
    }

    pub(crate) fn remove_oldest_error(&mut self) {
        self.errors.copy_within(1.., 0);
        self.queued = self.queued.saturating_sub(1);
    }

    /// *CLS.
    pub(crate) fn clear(&mut self) {
        self.esr = 0;
        for set in &mut self.sets {
            set.event = 0;
        }
        self.queued = 0;
    }

    /// *OPC.
    pub(crate) fn operation_complete(&mut self) {
        self.esr |= OPERATION_COMPLETE;
    }

    /// *SRE: bit 6 is stored as 0.
    pub(crate) fn enable_service_request(&mut self, value: u16) {
        self.sre = value & !SUMMARY;
    }

    pub(crate) fn report_condition(&mut self, name: SetName, value: u16) {
        self.set_mut(name).report_condition(value);
    }

    pub(crate) fn status_byte(&self, answer_has_bytes: bool) -> u16 {
        let mut byte = u16::from(self.esr & self.ese != 0) << 5
            | u16::from(answer_has_bytes) << 4
            | u16::from(self.queued != 0) << 2;
        for name in SetName::ALL {
            byte |= u16::from(self.set(name).has_enabled_event()) << name.summary_bit();
        }
        if byte & self.sre != 0 {
            byte | SUMMARY
        } else {
            byte
        }
    }
}
