//! The commands, and their variables in the places that the tables read and write.

use crate::tables::{Kind, Variable};
use crate::walk::Values;

/// The variables of table 4.
#[derive(Clone, Copy, Debug, Default, PartialEq, Eq)]
pub struct Init {
    pub n_factor: u8,
    pub channel_stim: u8,
    pub channel_lf: u8,
    pub group_time: u8,
    pub main_time: u16,
}

/// The variables of table 6, for one channel.
#[derive(Clone, Copy, Debug, Default, PartialEq, Eq)]
pub struct Setting {
    pub mode: u8,
    pub pulse_width: u16,
    pub pulse_current: u8,
}

/// The variables of table 10.
#[derive(Clone, Copy, Debug, Default, PartialEq, Eq)]
pub struct Single {
    pub channel_number: u8,
    pub pulse_width: u16,
    pub pulse_current: u8,
}

/// A command of section 5.2. An Update has a setting for each listed channel, lowest first, and
/// zeros behind them.
#[derive(Clone, Copy, Debug, PartialEq, Eq)]
pub enum Command {
    Init(Init),
    Update([Setting; 8]),
    Stop,
    Single(Single),
}

/// The variables of a frame: place 0 has those sent once, place k those of the k-th listed channel.
pub type Places = [Values; 9];

impl Command {
    pub fn kind(&self) -> Kind {
        match self {
            Command::Init(_) => Kind::Init,
            Command::Update(_) => Kind::Update,
            Command::Stop => Kind::Stop,
            Command::Single(_) => Kind::Single,
        }
    }

    pub(crate) fn places(&self) -> Places {
        let mut places = Places::default();
        let once = &mut places[0];
        match self {
            Command::Init(init) => {
                once.set(Variable::NFactor, init.n_factor.into());
                once.set(Variable::ChannelStim, init.channel_stim.into());
                once.set(Variable::ChannelLf, init.channel_lf.into());
                once.set(Variable::GroupTime, init.group_time.into());
                once.set(Variable::MainTime, init.main_time);
            }
            Command::Update(settings) => {
                for (place, setting) in places[1..].iter_mut().zip(settings) {
                    place.set(Variable::Mode, setting.mode.into());
                    place.set(Variable::PulseWidth, setting.pulse_width);
                    place.set(Variable::PulseCurrent, setting.pulse_current.into());
                }
            }
            Command::Stop => {}
            Command::Single(single) => {
                once.set(Variable::ChannelNumber, single.channel_number.into());
                once.set(Variable::PulseWidth, single.pulse_width);
                once.set(Variable::PulseCurrent, single.pulse_current.into());
            }
        }
        places
    }

    pub(crate) fn from_places(kind: Kind, places: &Places) -> Command {
        let once = &places[0];
        match kind {
            Kind::Init => Command::Init(Init {
                n_factor: small(once, Variable::NFactor),
                channel_stim: small(once, Variable::ChannelStim),
                channel_lf: small(once, Variable::ChannelLf),
                group_time: small(once, Variable::GroupTime),
                main_time: once.get(Variable::MainTime),
            }),
            Kind::Update => Command::Update(std::array::from_fn(|index| {
                let place = &places[index + 1];
                Setting {
                    mode: small(place, Variable::Mode),
                    pulse_width: place.get(Variable::PulseWidth),
                    pulse_current: small(place, Variable::PulseCurrent),
                }
            })),
            Kind::Stop => Command::Stop,
            Kind::Single => Command::Single(Single {
                channel_number: small(once, Variable::ChannelNumber),
                pulse_width: once.get(Variable::PulseWidth),
                pulse_current: small(once, Variable::PulseCurrent),
            }),
        }
    }
}

fn small(values: &Values, variable: Variable) -> u8 {
    u8::try_from(values.get(variable)).expect("the tables give it 8 bits at most")
}
