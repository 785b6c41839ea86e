//! The states as bands: a strip with their words, and their shades behind the lanes.

use super::axis::{Time, LEFT, RIGHT};
use super::ink::{self, filled, Area, Drawn};
use crate::course::Event;
use plotters::prelude::{Text, WHITE};
use plotters::style::text_anchor::{HPos, VPos};
use plotters::style::RGBColor;
use yarrowbell::State;

/// The strip and a little space below.
pub const HEIGHT: u32 = STRIP as u32 + 5;
const STRIP: i32 = 18;

/// From the least grave to the gravest.
pub const STATES: [State; 3] = [State::Idle, State::Running, State::Tripped];

/// A state from a column up to another.
struct Band {
    state: State,
    from: i32,
    to: i32,
}

pub struct Bands(Vec<Band>);

impl Bands {
    /// Where a column has more than one state it shows the gravest.
    pub fn of(events: &[Event], time: &Time) -> Bands {
        let mut columns = vec![State::Idle; (RIGHT - LEFT) as usize];
        let mut show = |state: State, from: i32, to: i32| {
            for column in from..to.max(from + 1) {
                let shown = &mut columns[(column - LEFT) as usize];
                if gravity(state) > gravity(*shown) {
                    *shown = state;
                }
            }
        };
        let (mut state, mut since) = (State::Idle, 0);
        for event in events {
            if event.clock > since && event.state != state {
                show(state, time.column(since), time.column(event.clock));
                since = event.clock;
            }
            state = event.state;
        }
        show(state, time.column(since), RIGHT);
        Bands(runs(&columns))
    }

    pub fn draw_strip(&self, area: &Area) -> Drawn {
        let label = ink::text(ink::SMALL, HPos::Right, VPos::Center);
        area.draw(&Text::new("state", (LEFT - 10, STRIP / 2), label))?;
        let word = ink::text(ink::SMALL, HPos::Center, VPos::Center);
        area.draw(&filled((LEFT - 1, 0), (RIGHT - LEFT + 2, STRIP), ink::RULE))?;
        for Band { state, from, to } in &self.0 {
            area.draw(&filled((*from, 1), (to - from, STRIP - 2), strip(*state)))?;
            let said = state.to_string();
            if ink::length(&said, ink::SMALL) + 8 <= to - from {
                let style = word.color(ink_on(*state));
                area.draw(&Text::new(said, ((from + to) / 2, STRIP / 2), style))?;
            }
        }
        Ok(())
    }

    pub fn draw_shades(&self, area: &Area) -> Drawn {
        let height = area.dim_in_pixel().1 as i32;
        for Band { state, from, to } in &self.0 {
            area.draw(&filled((*from, 0), (to - from, height), shade(*state)))?;
        }
        Ok(())
    }
}

fn gravity(state: State) -> Option<usize> {
    STATES.iter().position(|other| *other == state)
}

fn runs(columns: &[State]) -> Vec<Band> {
    let mut bands: Vec<Band> = Vec::new();
    for (state, from) in columns.iter().zip(LEFT..) {
        match bands.last_mut() {
            Some(band) if band.state == *state => band.to = from + 1,
            _ => bands.push(Band { state: *state, from, to: from + 1 }),
        }
    }
    bands
}

/// Behind the pulses: paler than the palest of them.
pub fn shade(state: State) -> RGBColor {
    match state {
        State::Idle => WHITE,
        State::Running => RGBColor(0xE9, 0xEF, 0xF6),
        State::Tripped => RGBColor(0xD3, 0xCB, 0xC7),
    }
}

/// In the strip, where nothing but a word stands in front.
pub fn strip(state: State) -> RGBColor {
    match state {
        State::Idle => WHITE,
        State::Running => RGBColor(0xB8, 0xC9, 0xDD),
        State::Tripped => RGBColor(0x4A, 0x3A, 0x3A),
    }
}

fn ink_on(state: State) -> &'static RGBColor {
    match state {
        State::Idle | State::Running => &ink::BLACK,
        State::Tripped => &WHITE,
    }
}

#[cfg(test)]
mod tests {
    use super::{Band, Bands, State, Time, LEFT, RIGHT};
    use crate::course::{Event, What};
    use yarrowbell::Cause;

    /// Tripped for one tick of a million.
    #[test]
    fn a_short_trip_is_seen() {
        let trip = |clock, state| Event { clock, state, what: What::Trip(Cause::Limit) };
        let events = [trip(500_000, State::Tripped), trip(500_001, State::Running)];
        let time = Time::until(1_000_000);
        let (at, Bands(bands)) = (time.column(500_000), Bands::of(&events, &time));
        let seen: Vec<_> =
            bands.iter().map(|Band { state, from, to }| (*state, *from, *to)).collect();
        let tripped = (State::Tripped, at, at + 1);
        assert_eq!(seen, [(State::Idle, LEFT, at), tripped, (State::Running, at + 1, RIGHT)]);
    }
}
