//! What pictures say, and how large they are.

use super::tint::TINTS;
use super::{svg, Panel};
use crate::course::{Decided, Event, Pulse, What};
use crate::picture::well_formed::is_well_formed;
use plotters::style::RGBColor;
use yarrowbell::{Answer, Cause, State};

fn pulse(clock: u32, channel: u8, width: u16, current: u16) -> Event {
    let what = What::Pulse(Pulse { channel, width, current });
    Event { clock, state: State::Running, what }
}

fn decided(clock: u32, state: State, bytes: &[u8], answer: Answer) -> Event {
    let (bytes, reasons) = (bytes.to_vec(), Vec::new());
    let what = What::Decided(Decided { bytes, listed: 0, answer, reply: 0, reasons });
    Event { clock, state, what }
}

/// An Init of channels 1 and 3.
const INIT: [u8; 6] = [0x88, 0x01, 0x20, 0x00, 0x30, 0x12];

/// The Init, two pulses, of which the second is far too strong, and an Update over a limit.
fn course() -> Vec<Event> {
    vec![
        decided(0, State::Running, &INIT, Answer::Done),
        pulse(100, 1, 200, 40),
        pulse(115, 3, 300, 41_200),
        decided(150, State::Tripped, &[0xBB], Answer::OverLimit),
        Event { clock: 150, state: State::Tripped, what: What::Trip(Cause::Limit) },
    ]
}

/// How often these words are written.
fn count(text: &str, words: &str) -> usize {
    text.lines().filter(|line| *line == words).count()
}

/// How many bars there are: four points each, in polygons of a tint.
fn bars(text: &str) -> usize {
    let tints = TINTS.map(|RGBColor(red, green, blue)| format!("#{red:02X}{green:02X}{blue:02X}"));
    let polygons = text.lines().filter(|line| line.starts_with("<polygon"));
    let combs = polygons.filter(|line| tints.iter().any(|tint| line.contains(tint)));
    combs.map(|line| line.matches(',').count() / 4).sum()
}

#[test]
fn two_units() {
    let (first, second) = (course(), [pulse(100, 1, 200, 40)]);
    let panels =
        [Panel { title: "wrong", events: &first }, Panel { title: "right", events: &second }];
    let text = svg(&panels, 300, false);
    assert!(is_well_formed(&text));
    assert!(text.starts_with("<svg width=\"1200\""));
    assert_eq!(bars(&text), 3);
    for words in ["wrong", "right", "Init 0", "Update 9", "limit", "50,000 mA"] {
        assert_eq!(count(&text, words), 1, "{words}");
    }
    for words in ["channel 1", "channel 3", "time in milliseconds (ms)", "30"] {
        assert_eq!(count(&text, words), 2, "{words}");
    }
    assert_eq!(count(&text, "127 mA"), 3);
    assert!(!text.contains("tallest"));
}

/// The channels that have a lane in the first panel of a picture.
fn lanes(panels: &[&[Event]], all_lanes: bool) -> Vec<u8> {
    let panels: Vec<Panel> = panels.iter().map(|events| Panel { title: "unit", events }).collect();
    let text = svg(&panels, 300, all_lanes);
    let lane = |channel: &u8| count(&text, &format!("channel {channel}"));
    let shown: Vec<u8> = (1..=8).filter(|channel| lane(channel) > 0).collect();
    assert!(shown.iter().all(|channel| lane(channel) == panels.len()), "panels differ in lanes");
    shown
}

/// A channel has a lane if an accepted Init lists it in either panel, or if it pulses.
#[test]
fn lanes_that_are_used() {
    let init = |answer| [decided(0, State::Running, &INIT, answer)];
    let [accepted, refused] = [init(Answer::Done), init(Answer::OverLimit)];
    assert_eq!(lanes(&[&accepted], false), [1, 3]);
    assert_eq!(lanes(&[&refused, &[pulse(5, 8, 10, 1)]], false), [8]);
    assert_eq!(lanes(&[&refused, &accepted, &[pulse(5, 2, 10, 1)]], false), [1, 2, 3]);
    assert_eq!(lanes(&[&accepted], true), [1, 2, 3, 4, 5, 6, 7, 8]);
    // Channel 2 in Channel_Stim; all channels in Channel_Lf.
    let low_frequency = [0x98, 0x00, 0x5F, 0x70, 0x30, 0x12];
    let Ok(frame) = yarrowbell::read(&low_frequency, 1) else { panic!("it is a frame") };
    let yarrowbell::Command::Init(init) = frame.command else { panic!("it is an Init") };
    assert_eq!((init.stim, init.lf), (2, 255));
    let event = decided(0, State::Running, &low_frequency, Answer::Done);
    assert_eq!(lanes(&[&[event]], false), [2]);
}

/// The heights of pictures differ by those of their lanes.
#[test]
fn heights() {
    let height = |channels: u8| -> u32 {
        let events: Vec<Event> = (1..=channels).map(|channel| pulse(5, channel, 10, 1)).collect();
        let text = svg(&[Panel { title: "unit", events: &events }], 300, false);
        let written = text.split('"').nth(3).expect("the height is the second attribute");
        written.parse().expect("it is a number")
    };
    assert_eq!(height(0), height(1));
    assert_eq!((2..=8).map(|lanes| height(lanes) - height(lanes - 1)).collect::<Vec<_>>(), [53; 7]);
}

#[test]
fn nothing_at_all() {
    let panel = || Panel { title: "unit", events: &[] };
    let text = svg(&[panel(), panel()], 0, false);
    assert!(is_well_formed(&text));
    assert_eq!((bars(&text), count(&text, "idle")), (0, 3));
    assert_eq!(count(&text, "No channel was listed, and no pulse released."), 2);
    assert!(!svg(&[panel()], 0, true).contains("No channel"));
}

/// Milliseconds up to 10,000, and then seconds.
#[test]
fn units_of_time() {
    let written = |end| {
        let text = svg(&[Panel { title: "unit", events: &course() }], end, false);
        ["time in milliseconds (ms)", "time in seconds (s)"].map(|words| count(&text, words))
    };
    assert_eq!([99_999, 100_000, u32::MAX].map(written), [[1, 0], [0, 1], [0, 1]]);
}

#[test]
fn titles_of_any_characters() {
    let title = "a<b>&\"'\u{1}\u{7f}\n\u{FFFF}µ]]>";
    let text = svg(&[Panel { title, events: &course() }], 300, false);
    assert!(is_well_formed(&text));
    let written = "a&lt;b&gt;&amp;&quot;&apos;\u{FFFD}\u{FFFD}\u{FFFD}\u{FFFD}µ]]&gt;";
    assert_eq!(count(&text, written), 1);
}

/// 130,000 pulses of all currents and widths, and a tenth as many commands.
#[test]
fn a_long_one_is_small() {
    let mut events = Vec::new();
    for number in 0..130_000u32 {
        let (width, current) = ((number * 67 % 501) as u16, 1 + (number * 31 % 127) as u16);
        events.push(pulse(number * 7, 1 + (number % 8) as u8, width, current));
        if number % 10 == 0 {
            let answer = if number % 20 == 0 { Answer::Done } else { Answer::InHold };
            events.push(decided(number * 7, State::Running, &[0xBB], answer));
        }
    }
    let panel = || Panel { title: "unit", events: &events };
    let text = svg(&[panel(), panel()], 1_000_000, false);
    assert!(is_well_formed(&text));
    assert!(text.contains("in one pixel column the tallest is drawn"));
    assert!(text.len() < 1_000_000, "{}", text.len());
}
