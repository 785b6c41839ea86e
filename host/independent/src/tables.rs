//! Tables 5, 7, 9 and 11 of source 003, bit by bit.

/// The commands by their Ident (table 3).
#[derive(Clone, Copy, Debug, PartialEq, Eq)]
pub enum Kind {
    Init = 0,
    Update = 1,
    Stop = 2,
    Single = 3,
}

/// The variables of tables 4, 6, 8 and 10. Ident is not among them: each table fixes its bits.
#[derive(Clone, Copy, Debug, PartialEq, Eq)]
pub enum Variable {
    Check,
    NFactor,
    ChannelStim,
    ChannelLf,
    GroupTime,
    MainTime,
    Mode,
    PulseWidth,
    PulseCurrent,
    ChannelNumber,
}

impl Variable {
    pub const COUNT: usize = Variable::ChannelNumber as usize + 1;
}

/// One line of a table: a bit with a value, a bit of a variable with its number there, or an X.
#[derive(Clone, Copy, Debug, PartialEq, Eq)]
pub enum Bit {
    Fixed(bool),
    Of(Variable, u8),
    Free,
}

/// One byte of a table, from bit 7 down to bit 0.
pub type Row = [Bit; 8];

/// A table: the bytes sent once, and those sent again for each listed channel.
#[derive(Debug)]
pub struct Layout {
    pub kind: Kind,
    /// What the sum of the variables is taken modulo (tables 4, 6, 8 and 10).
    pub modulus: u32,
    pub once: &'static [Row],
    pub per_channel: &'static [Row],
}

impl Layout {
    pub fn of(kind: Kind) -> &'static Layout {
        &LAYOUTS[kind as usize]
    }

    /// The bytes of a whole frame in order, each with the place of its variables: 0 for the bytes
    /// sent once, k for those of the k-th listed channel.
    pub fn rows(&self, count: usize) -> impl Iterator<Item = (&'static Row, usize)> {
        let (once, per_channel) = (self.once, self.per_channel);
        let listed =
            (1..=count).flat_map(move |place| per_channel.iter().map(move |row| (row, place)));
        once.iter().map(|row| (row, 0)).chain(listed)
    }
}

/// All four, in the order of their Ident.
pub static LAYOUTS: [Layout; 4] = [
    Layout { kind: Kind::Init, modulus: 8, once: &TABLE_5, per_channel: &[] },
    Layout {
        kind: Kind::Update,
        modulus: 32,
        once: &TABLE_7_ONCE,
        per_channel: &TABLE_7_PER_CHANNEL,
    },
    Layout { kind: Kind::Stop, modulus: 32, once: &TABLE_9, per_channel: &[] },
    Layout { kind: Kind::Single, modulus: 32, once: &TABLE_11, per_channel: &[] },
];

const I: Bit = Bit::Fixed(true);
const O: Bit = Bit::Fixed(false);
const X: Bit = Bit::Free;

const fn check(bit: u8) -> Bit {
    Bit::Of(Variable::Check, bit)
}
const fn factor(bit: u8) -> Bit {
    Bit::Of(Variable::NFactor, bit)
}
const fn stim(bit: u8) -> Bit {
    Bit::Of(Variable::ChannelStim, bit)
}
const fn lf(bit: u8) -> Bit {
    Bit::Of(Variable::ChannelLf, bit)
}
const fn group(bit: u8) -> Bit {
    Bit::Of(Variable::GroupTime, bit)
}
const fn main(bit: u8) -> Bit {
    Bit::Of(Variable::MainTime, bit)
}
const fn mode(bit: u8) -> Bit {
    Bit::Of(Variable::Mode, bit)
}
const fn width(bit: u8) -> Bit {
    Bit::Of(Variable::PulseWidth, bit)
}
const fn current(bit: u8) -> Bit {
    Bit::Of(Variable::PulseCurrent, bit)
}
const fn number(bit: u8) -> Bit {
    Bit::Of(Variable::ChannelNumber, bit)
}

/// Section 5.3, channel list mode initialisation.
const TABLE_5: [Row; 6] = [
    [I, O, O, check(2), check(1), check(0), factor(2), factor(1)],
    [O, factor(0), stim(7), stim(6), stim(5), stim(4), stim(3), stim(2)],
    [O, stim(1), stim(0), lf(7), lf(6), lf(5), lf(4), lf(3)],
    [O, lf(2), lf(1), lf(0), X, X, group(4), group(3)],
    [O, group(2), group(1), group(0), main(10), main(9), main(8), main(7)],
    [O, main(6), main(5), main(4), main(3), main(2), main(1), main(0)],
];

/// Section 5.4, channel list mode update: the first byte.
const TABLE_7_ONCE: [Row; 1] = [[I, O, I, check(4), check(3), check(2), check(1), check(0)]];

/// Section 5.4: the three bytes "for each channel activated in the channel list".
const TABLE_7_PER_CHANNEL: [Row; 3] = [
    [O, mode(1), mode(0), X, X, X, width(8), width(7)],
    [O, width(6), width(5), width(4), width(3), width(2), width(1), width(0)],
    [O, current(6), current(5), current(4), current(3), current(2), current(1), current(0)],
];

/// Section 5.5, channel list mode stop. The table also gives Check its value, 0; that is here the
/// sum of no variables, so that another one is a wrong check.
const TABLE_9: [Row; 1] = [[I, I, O, check(4), check(3), check(2), check(1), check(0)]];

/// Section 5.6, single pulse generation.
const TABLE_11: [Row; 4] = [
    [I, I, I, check(4), check(3), check(2), check(1), check(0)],
    [O, number(2), number(1), number(0), X, X, width(8), width(7)],
    [O, width(6), width(5), width(4), width(3), width(2), width(1), width(0)],
    [O, current(6), current(5), current(4), current(3), current(2), current(1), current(0)],
];
