//! What stands above a panel: the unit, its session and its profile.

use super::ink::{self, Area, Drawn};
use super::WIDTH;
use plotters::prelude::{FontStyle, Text};
use plotters::style::text_anchor::{HPos, Pos, VPos};
use std::path::Path;

pub const HEIGHT: u32 = 26;

/// Where it begins, and how long it can be.
const LEFT: i32 = 14;
const ROOM: i32 = WIDTH as i32 - 2 * LEFT;

/// The title of a unit, which has no name if it is alone. Paths that are too long lose their
/// beginning.
pub fn of(name: Option<&str>, session: &Path, profile: Option<&Path>) -> String {
    let name = name.map_or_else(String::new, |name| format!("{name}: "));
    let session = session.display().to_string();
    let Some(profile) = profile else {
        let end = ", the loosest profile";
        let room = ROOM - length(&name) - length(end);
        return name + &shortened(&session, room) + end;
    };
    let (between, profile) = (", profile ", profile.display().to_string());
    let room = ROOM - length(&name) - length(between);
    // What the other leaves, and at least half.
    let beside = |other: &str| (room - length(other)).max(room / 2);
    let (first, second) = (beside(&profile), beside(&session));
    name + &shortened(&session, first) + between + &shortened(&profile, second)
}

/// The longest end of a path that has room, with a mark of what is left out before it.
fn shortened(path: &str, room: i32) -> String {
    if length(path) <= room {
        return path.to_owned();
    }
    let ends = path.char_indices().map(|(at, _)| format!("…{}", &path[at..]));
    let mut fitting = ends.skip(1).filter(|end| length(end) <= room);
    fitting.next().unwrap_or_else(|| "…".to_owned())
}

/// How many pixels words are long at most.
fn length(words: &str) -> i32 {
    let hundredths: i32 = words.chars().map(breadth).sum();
    (hundredths * ink::LARGE + 99) / 100
}

/// A letter's breadth in hundredths of its size, as bold as the broadest of the usual typefaces has
/// it.
fn breadth(letter: char) -> i32 {
    match letter {
        'M' | 'W' | 'm' | 'w' | '@' | '%' => 111,
        'A'..='Z' | '#' | '&' | '+' | '<'..='>' | '^' | '~' => 88,
        ' '..='~' => 72,
        _ => 135,
    }
}

pub fn draw(area: &Area, title: &str) -> Drawn {
    let style = ink::font(ink::LARGE, FontStyle::Bold).color(&ink::BLACK);
    let style = style.pos(Pos::new(HPos::Left, VPos::Top));
    area.draw(&Text::new(written(title), (LEFT, 4), style))
}

/// The title with a mark for each character that XML does not take.
fn written(title: &str) -> String {
    let taken = |letter: char| !letter.is_control() && !matches!(letter, '\u{FFFE}' | '\u{FFFF}');
    title.chars().map(|letter| if taken(letter) { letter } else { '\u{FFFD}' }).collect()
}

#[cfg(test)]
mod tests {
    use super::{length, of, shortened, written, ROOM};
    use std::path::Path;

    fn path(words: &str) -> &Path {
        Path::new(words)
    }

    #[test]
    fn short_paths() {
        let (session, lab) = (path("day1.session"), path("lab.toml"));
        assert_eq!(of(None, session, Some(lab)), "day1.session, profile lab.toml");
        assert_eq!(of(None, session, None), "day1.session, the loosest profile");
        let second = of(Some("the second"), session, Some(lab));
        assert_eq!(second, "the second: day1.session, profile lab.toml");
    }

    /// A path is shortened if it has more than half of the room and the other leaves it too little.
    #[test]
    fn long_paths() {
        let long = |letter: &str, end: &str| format!("{}/{end}", letter.repeat(300));
        for letter in ["a", "W", "ж", "<", "."] {
            let (session, lab) = (long(letter, "day1.session"), long(letter, "lab.toml"));
            for (session, profile, cut) in [
                (session.as_str(), lab.as_str(), [true, true]),
                (&session, "lab.toml", [true, false]),
                ("day1.session", &lab, [false, true]),
            ] {
                let title = of(Some("the first"), path(session), Some(path(profile)));
                assert!(length(&title) <= ROOM && length(&title) > ROOM - 90, "{title}");
                let words = title.strip_prefix("the first: ").expect("its name stands first");
                let (one, other) = words.split_once(", profile ").expect("both stand there");
                assert_eq!([one, other].map(|path| path.starts_with('…')), cut, "{title}");
                assert!(one.ends_with("day1.session") && other.ends_with("lab.toml"), "{title}");
            }
            let title = of(None, path(&session), None);
            assert!(
                length(&title) <= ROOM && title.ends_with("/day1.session, the loosest profile")
            );
        }
        assert_eq!(shortened("day1.session", 0), "…");
    }

    #[test]
    fn what_xml_does_not_take() {
        assert_eq!(written("a\u{1}b\n\u{FFFF}µ<&\"…"), "a\u{FFFD}b\u{FFFD}\u{FFFD}µ<&\"…");
    }
}
