//! The settings: 01's sixteen in the order of its table, then exam mode (02, #107), then channel 2's
//! thirteen in 01's order (#111), and beside them the display's text (#109). Numbers are counted in
//! steps.

use crate::number::{Quantity, Step};
use crate::string::Text;
use crate::text::Word;

/// The settings of channel 1 and the single ones, and those with channel 2's after them.
pub const SETTINGS_OF_ONE: usize = 17;
pub const SETTINGS: usize = 30;

/// A setting of a channel, or a single one, by channel 1's place in the record.
#[derive(Clone, Copy, Debug, PartialEq, Eq)]
pub enum Setting {
    OutputState,
    OutputPon,
    OutputRelay,
    MonitorMode,
    Voltage,
    VoltageRange,
    Frequency,
    RmsLimit,
    RmsMode,
    PeakMode,
    RmsTime,
    PeakTime,
    PeakHigh,
    PeakLow,
    Brightness,
    KeyLock,
    Exam,
}

/// OUTPut, VOLTage, FREQuency and CURRent are there twice (02, #111).
#[derive(Clone, Copy, Debug, PartialEq, Eq)]
pub enum Channel {
    One,
    Two,
}

/// A setting of one channel; the single ones are among those of channel 1.
#[derive(Clone, Copy, Debug, PartialEq, Eq)]
pub struct Slot {
    pub setting: Setting,
    pub channel: Channel,
}

/// What a row of the table takes.
pub enum Values {
    Bool,
    Words(&'static [Word]),
    Number(Step, Option<Quantity>),
}

struct Row {
    values: Values,
    lowest: i32,
    highest: i32,
    reset: i32,
}

static MONITOR_MODES: [Word; 3] = [
    Word::new("CURRent"),
    Word::new("SCURrent"),
    Word::new("VOLTage"),
];
static RANGES: [Word; 2] = [Word::new("R12V"), Word::new("R24V")];
static LIMIT_MODES: [Word; 2] = [Word::new("CONTinuous"), Word::new("OFF")];

pub const R12V: i32 = 0;
const R12V_HIGHEST: i32 = 120;

const fn bool_row(reset: i32) -> Row {
    Row {
        values: Values::Bool,
        lowest: 0,
        highest: 1,
        reset,
    }
}

const fn word_row(words: &'static [Word], reset: i32) -> Row {
    Row {
        values: Values::Words(words),
        lowest: 0,
        highest: words.len() as i32 - 1,
        reset,
    }
}

const fn number_row(values: Values, lowest: i32, highest: i32, reset: i32) -> Row {
    Row {
        values,
        lowest,
        highest,
        reset,
    }
}

const VOLTS: Values = Values::Number(Step::Tenth, Some(Quantity::Voltage));
const AMPERES: Values = Values::Number(Step::Tenth, Some(Quantity::Current));
const HERTZ: Values = Values::Number(Step::Tenth, Some(Quantity::Frequency));
const SECONDS: Values = Values::Number(Step::One, Some(Quantity::Time));
const BARE: Values = Values::Number(Step::One, None);

static ROWS: [Row; SETTINGS_OF_ONE] = [
    bool_row(0),
    bool_row(0),
    bool_row(1),
    word_row(&MONITOR_MODES, 2),
    number_row(VOLTS, 0, 240, 0),
    word_row(&RANGES, R12V),
    number_row(HERTZ, 400, 5500, 500),
    number_row(AMPERES, 1, 20, 10),
    word_row(&LIMIT_MODES, 1),
    word_row(&LIMIT_MODES, 1),
    number_row(SECONDS, 1, 10, 1),
    number_row(SECONDS, 1, 10, 1),
    number_row(AMPERES, 5, 80, 40),
    number_row(AMPERES, -80, -5, -40),
    number_row(BARE, 0, 99, 50),
    bool_row(0),
    bool_row(0),
];

/// The row of each place in the record: channel 2 lacks only the monitor mode in between.
const fn row_of(place: usize) -> &'static Row {
    if place < SETTINGS_OF_ONE {
        return &ROWS[place];
    }
    let row = place - SETTINGS_OF_ONE;
    if row < Setting::MonitorMode as usize {
        &ROWS[row]
    } else {
        &ROWS[row + 1]
    }
}

/// The lower and the upper limits side by side, for the test of a whole record.
static LOWEST: [i32; SETTINGS] = lowest();
static HIGHEST: [i32; SETTINGS] = highest();

const fn lowest() -> [i32; SETTINGS] {
    let mut limits = [0; SETTINGS];
    let mut place = 0;
    while place < SETTINGS {
        limits[place] = row_of(place).lowest;
        place += 1;
    }
    limits
}

const fn highest() -> [i32; SETTINGS] {
    let mut limits = [0; SETTINGS];
    let mut place = 0;
    while place < SETTINGS {
        limits[place] = row_of(place).highest;
        place += 1;
    }
    limits
}

const fn reset() -> [i32; SETTINGS] {
    let mut values = [0; SETTINGS];
    let mut place = 0;
    while place < SETTINGS {
        values[place] = row_of(place).reset;
        place += 1;
    }
    values
}

impl Setting {
    pub const fn of(self, channel: Channel) -> Slot {
        Slot {
            setting: self,
            channel,
        }
    }
}

impl Slot {
    pub fn values(self) -> &'static Values {
        &ROWS[self.setting as usize].values
    }

    /// Its place in the record.
    const fn place(self) -> usize {
        let place = self.setting as usize;
        match self.channel {
            Channel::One => place,
            Channel::Two if place < Setting::MonitorMode as usize => SETTINGS_OF_ONE + place,
            Channel::Two => SETTINGS_OF_ONE + place - 1,
        }
    }
}

#[derive(Clone, Debug, PartialEq, Eq)]
pub struct Settings {
    pub values: [i32; SETTINGS],
    pub text: Text,
}

impl Settings {
    /// The values at *RST.
    pub(crate) const fn reset() -> Settings {
        Settings {
            values: reset(),
            text: Text::EMPTY,
        }
    }

    pub(crate) fn get(&self, slot: Slot) -> i32 {
        self.values[slot.place()]
    }

    pub(crate) fn set(&mut self, slot: Slot, value: i32) {
        self.values[slot.place()] = value;
    }

    pub(crate) fn lowest(&self, slot: Slot) -> i32 {
        LOWEST[slot.place()]
    }

    /// The voltage's upper limit goes by its channel's present range.
    pub(crate) fn highest(&self, slot: Slot) -> i32 {
        let range = Setting::VoltageRange.of(slot.channel);
        if slot.setting == Setting::Voltage && self.get(range) == R12V {
            R12V_HIGHEST
        } else {
            HIGHEST[slot.place()]
        }
    }

    /// 02, #107: an off-step number is then out of range.
    pub(crate) fn exam_is_on(&self) -> bool {
        self.get(Setting::Exam.of(Channel::One)) != 0
    }

    /// 01, check 8, for one channel.
    pub(crate) fn voltage_is_above_r12v(&self, channel: Channel) -> bool {
        self.get(Setting::Voltage.of(channel)) > R12V_HIGHEST
    }

    fn voltage_keeps_its_range(&self, channel: Channel) -> bool {
        let voltage = Setting::Voltage.of(channel);
        self.get(voltage) <= self.highest(voltage)
    }

    #[inline]
    pub(crate) fn keep_their_limits(&self) -> bool {
        let mut outside = false;
        for place in 0..SETTINGS {
            let value = self.values[place];
            outside |= (value < LOWEST[place]) | (value > HIGHEST[place]);
        }
        !outside
            && self.voltage_keeps_its_range(Channel::One)
            && self.voltage_keeps_its_range(Channel::Two)
            && self.text.keeps_its_limits()
    }
}
