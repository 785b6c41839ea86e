//! Profiles in TOML files.

use crate::failure::BadInput;
use crate::input::Source;
use serde::de::{DeserializeOwned, IgnoredAny, MapAccess, Visitor};
use serde::{Deserialize, Deserializer};
use std::fmt;
use std::ops::RangeInclusive;
use std::path::Path;
use toml::Spanned;
use yarrowbell::Profile;

const KEYS: [&str; 5] = ["currents", "widths", "charge", "shortest_t1", "watchdog"];

/// How many bytes a file may have: the reader of TOML has its limits, for it calls itself at each
/// bracket in a bracket.
const LONGEST: usize = 16_384;

/// What the file says. A number that it leaves out is the loosest.
#[derive(Deserialize)]
struct Written {
    currents: Option<Spanned<Vec<Spanned<i64>>>>,
    widths: Option<Spanned<Vec<Spanned<i64>>>>,
    charge: Option<Spanned<i64>>,
    shortest_t1: Option<Spanned<i64>>,
    watchdog: Option<Spanned<i64>>,
}

/// The keys of the file, in their order.
struct Keys(Vec<Spanned<String>>);

impl<'de> Deserialize<'de> for Keys {
    fn deserialize<D: Deserializer<'de>>(file: D) -> Result<Keys, D::Error> {
        file.deserialize_map(KeysVisitor)
    }
}

struct KeysVisitor;

impl<'de> Visitor<'de> for KeysVisitor {
    type Value = Keys;

    fn expecting(&self, out: &mut fmt::Formatter) -> fmt::Result {
        out.write_str("a profile")
    }

    fn visit_map<A: MapAccess<'de>>(self, mut map: A) -> Result<Keys, A::Error> {
        let mut keys = Vec::new();
        while let Some((key, _)) = map.next_entry::<Spanned<String>, IgnoredAny>()? {
            keys.push(key);
        }
        Ok(Keys(keys))
    }
}

/// The loosest profile if no file is named.
pub fn of_file(file: Option<&Source>) -> Result<Profile, BadInput> {
    let Some(file) = file else { return Ok(Profile::LOOSEST) };
    let text = file.text()?;
    if text.len() > LONGEST {
        let what = format!("{} bytes, and a profile has at most {LONGEST}", text.len());
        return Err(BadInput::file(file.name(), what));
    }
    Reader { file: file.name(), text: &text }.profile()
}

struct Reader<'a> {
    file: &'a Path,
    text: &'a str,
}

impl Reader<'_> {
    fn profile(&self) -> Result<Profile, BadInput> {
        self.keys()?;
        let written: Written = self.toml()?;
        let loosest = Profile::LOOSEST;
        Ok(Profile {
            currents: self.eight(
                "currents",
                written.currents,
                Profile::CURRENTS,
                loosest.currents,
            )?,
            widths: self.eight("widths", written.widths, Profile::WIDTHS, loosest.widths)?,
            charge: self.one("charge", written.charge, Profile::CHARGES, loosest.charge)?,
            shortest: self.one(
                "shortest_t1",
                written.shortest_t1,
                Profile::SHORTEST,
                loosest.shortest,
            )?,
            watchdog: self.one(
                "watchdog",
                written.watchdog,
                Profile::WATCHDOGS,
                loosest.watchdog,
            )?,
        })
    }

    /// Each key is one of a profile, and stands there once.
    fn keys(&self) -> Result<(), BadInput> {
        let Keys(keys) = self.toml()?;
        for (place, key) in keys.iter().enumerate() {
            let name = key.get_ref();
            if !KEYS.contains(&name.as_str()) {
                let what = format!("{name:?} is no key of a profile: {}", KEYS.join(", "));
                return Err(self.bad(key.start(), what));
            }
            if keys[..place].contains(key) {
                return Err(self.bad(key.start(), format!("{name} stands in it twice")));
            }
        }
        Ok(())
    }

    fn toml<T: DeserializeOwned>(&self) -> Result<T, BadInput> {
        toml::from_str(self.text).map_err(|error| {
            let what = said(&error);
            match error.line_col() {
                Some((line, _)) => BadInput::line(self.file, line + 1, what),
                None => BadInput::file(self.file, what),
            }
        })
    }

    fn eight<N: TryFrom<i64>>(
        &self,
        key: &str,
        written: Option<Spanned<Vec<Spanned<i64>>>>,
        range: RangeInclusive<u32>,
        loosest: [N; 8],
    ) -> Result<[N; 8], BadInput> {
        let Some(written) = written else { return Ok(loosest) };
        let start = written.start();
        let numbers = (1..).zip(written.into_inner()).map(|(channel, number)| {
            self.number(&format!("{key}, channel {channel}"), number, &range)
        });
        let numbers = numbers.collect::<Result<Vec<N>, BadInput>>()?;
        let count = numbers.len();
        numbers.try_into().map_err(|_| {
            self.bad(start, format!("{key} has {count} numbers, and there are eight channels"))
        })
    }

    fn one<N: TryFrom<i64>>(
        &self,
        key: &str,
        written: Option<Spanned<i64>>,
        range: RangeInclusive<u32>,
        loosest: N,
    ) -> Result<N, BadInput> {
        written.map_or(Ok(loosest), |number| self.number(key, number, &range))
    }

    fn number<N: TryFrom<i64>>(
        &self,
        key: &str,
        number: Spanned<i64>,
        range: &RangeInclusive<u32>,
    ) -> Result<N, BadInput> {
        let (least, most) = (i64::from(*range.start()), i64::from(*range.end()));
        let is = *number.get_ref();
        let within = if (least..=most).contains(&is) { N::try_from(is).ok() } else { None };
        within.ok_or_else(|| {
            self.bad(number.start(), format!("{key}: {is} is out of its range, {least} to {most}"))
        })
    }

    /// What is wrong at this byte of the text.
    fn bad(&self, at: usize, what: String) -> BadInput {
        let line = 1 + self.text[..at].matches('\n').count();
        BadInput::line(self.file, line, what)
    }
}

/// The error without its own words on the line.
fn said(error: &toml::de::Error) -> String {
    let said = error.to_string();
    said.split(" at line ").next().unwrap_or(&said).to_owned()
}
