//! The tests of request 12 in their order.

use super::{Reason, What};
use crate::layout;
use crate::packet::always::Always;
use crate::packet::content::{self, Placed, FRONT};
use crate::packet::field::Field;
use crate::packet::generation::Generation;
use crate::packet::given::{plain, Given, Unit};
use crate::packet::stuffing::STUFFING;
use crate::words::counted;

/// The first test that the packet fails.
pub fn of<G: Generation>(given: &Given) -> Option<Reason<G::Field>> {
    unfinished(given).or_else(|| checksum(given)).or_else(|| length(given)).or_else(|| {
        let units = given.units();
        stuffing(&units).or_else(|| content::<G>(given, &units))
    })
}

fn unfinished<F>(given: &Given) -> Option<Reason<F>> {
    match (given.start, given.stop) {
        (None, _) => Some(Reason { at: None, what: What::NoStart }),
        (start, None) => Some(Reason { at: start, what: What::NoStop }),
        _ => None,
    }
}

fn checksum<F>(given: &Given) -> Option<Reason<F>> {
    let (there, right) = (given.checksum(), given.right_checksum());
    let Some(has) = there.value() else {
        return Some(bare(&there, What::NoChecksum, What::BareChecksum));
    };
    let at = there.differs_at(right)?;
    Some(Reason { at: Some(at), what: What::Checksum { has, right } })
}

fn length<F>(given: &Given) -> Option<Reason<F>> {
    let (there, right) = (given.length(), given.right_length());
    let Some(has) = there.value() else {
        return Some(bare(&there, What::NoLength, What::BareLength));
    };
    let at = match u16::try_from(right) {
        Ok(number) if right <= given.framing.highest => there.differs_at(number)?,
        _ => there.at + 1,
    };
    Some(Reason { at: Some(at), what: What::Length { has, right } })
}

/// What is wrong with a number that is missing, or not stuffed.
fn bare<F>(there: &Always, missing: What<F>, instead: impl Fn(u8) -> What<F>) -> Reason<F> {
    let mut firsts = there.pairs().map(|(at, pair)| (at, pair[0]));
    match firsts.find(|(_, first)| *first != STUFFING) {
        Some((at, first)) => Reason { at: Some(at), what: instead(first) },
        None => Reason { at: Some(there.at + there.bytes.len()), what: missing },
    }
}

fn stuffing<F>(units: &[Unit]) -> Option<Reason<F>> {
    let unit = units.iter().find(|unit| unit.plain.is_none())?;
    let what = match unit.bytes {
        [_, second] => What::Pair(*second),
        [byte, ..] => What::Bare(*byte),
        [] => return None,
    };
    Some(Reason { at: Some(unit.at), what })
}

/// Packet number, command and data, where all is stuffed as it should be.
fn content<G: Generation>(given: &Given, units: &[Unit]) -> Option<Reason<G::Field>> {
    let at = |place: usize| Some(units.get(place).map_or(given.end(), |unit| unit.at));
    let plain = plain(units);
    let Some(command) = content::command::<G>(&plain) else {
        let what = if plain.is_empty() { What::NoPacketNumber } else { What::NoCommand };
        return Some(Reason { at: Some(given.end()), what });
    };
    let (has, most) = (plain.len() - FRONT, given.framing.longest_data);
    if has > most {
        return Some(Reason { at: at(FRONT + most), what: What::TooMuch(has) });
    }
    let data = content::data::<G>(&plain)?;
    let right = layout::length(&data.places());
    if has != right {
        let points = match data.points {
            0 => String::new(),
            points => format!(" of {}", counted(points as u64, "point")),
        };
        let of = G::name(command).unwrap_or_default().to_owned() + &points;
        return Some(Reason { at: at(FRONT + right), what: What::Data { of, has, right } });
    }
    let broken = |placed: &Placed<G::Field>| {
        let value = placed.value;
        value.field.broken(value.number).is_some()
    };
    let placed = content::values::<G>(&plain).into_iter().find(broken)?;
    Some(Reason { at: at(placed.at), what: What::Value(placed.value) })
}
