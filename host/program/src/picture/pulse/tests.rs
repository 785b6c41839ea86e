//! What pictures of pulses say.

use super::{svg, Panel, ABOVE, BELOW};
use crate::picture::well_formed::is_well_formed;
use plotters::style::RGBColor;
use yarrowbell::rehamove3::Point;

/// The points in microseconds and half milliamps, and their net charge.
fn panel(title: &str, points: &[(u16, i16)]) -> Panel {
    let point = |(duration, current): &(u16, i16)| Point { duration: *duration, current: *current };
    let points: Vec<Point> = points.iter().map(point).collect();
    let charges = points.iter().map(|point| i32::from(point.duration) * i32::from(point.current));
    Panel { title: title.to_owned(), net: charges.sum(), points }
}

fn drawn(points: &[(u16, i16)]) -> String {
    let text = svg(&[panel("a pulse", points)]);
    assert!(is_well_formed(&text), "{text}");
    assert!(text.starts_with("<svg width=\"1200\""));
    text
}

/// How often these words are written.
fn count(text: &str, words: &str) -> usize {
    text.lines().filter(|line| *line == words).count()
}

/// The breadth and the height of each box of a tint, but for the foot's swatch.
fn boxes(text: &str, RGBColor(red, green, blue): RGBColor) -> Vec<(i32, i32)> {
    let tint = format!("fill=\"#{red:02X}{green:02X}{blue:02X}\"");
    let number = |line: &str, name: &str| -> i32 {
        let (_, rest) = line.split_once(&format!(" {name}=\"")).expect("a box has it");
        let (number, _) = rest.split_once('"').expect("it ends");
        number.parse().expect("it is a number")
    };
    let rects = text.lines().filter(|line| line.starts_with("<rect") && line.contains(&tint));
    let mut boxes: Vec<(i32, i32)> =
        rects.map(|line| (number(line, "width"), number(line, "height"))).collect();
    boxes.pop();
    boxes
}

#[test]
fn a_biphasic_pulse() {
    let text = drawn(&[(250, 40), (100, 0), (250, -40)]);
    for (words, times) in [
        ("a pulse", 1),
        ("1: 250 µs, 20.0 mA", 2),
        ("2: 100 µs, 0.0 mA", 2),
        ("3: 250 µs, -20.0 mA", 2),
        ("5,000 nC", 1),
        ("-5,000 nC", 1),
        ("above zero: 10,000 half mA µs = 5,000 nC", 1),
        ("below zero: -10,000 half mA µs = -5,000 nC", 1),
        ("net charge", 1),
        ("time in microseconds (µs)", 1),
        ("current in milliamps (mA)", 1),
    ] {
        assert_eq!(count(&text, words), times, "{words}");
    }
    assert!(!text.contains("is not written"));
    let (above, below) = (boxes(&text, ABOVE), boxes(&text, BELOW));
    assert_eq!((above.len(), below.len()), (1, 1));
    assert_eq!(above[0].1, below[0].1);
}

/// An area has the breadth of its duration and the height of its current.
#[test]
fn areas() {
    let text = drawn(&[(100, 40), (200, 20), (400, -20)]);
    let (above, below) = (boxes(&text, ABOVE), boxes(&text, BELOW));
    let [(narrow, high), (broad, low)] = above[..] else { panic!("{above:?}") };
    assert!((2 * narrow - broad).abs() <= 2 && (high - 2 * low).abs() <= 2, "{above:?}");
    let [(broadest, deep)] = below[..] else { panic!("{below:?}") };
    assert!((broadest - 2 * broad).abs() <= 2 && (deep - low).abs() <= 1, "{below:?}");
}

#[test]
fn a_net_charge() {
    let text = drawn(&[(250, 40), (100, 0), (200, -40)]);
    let words =
        "2,000 half mA µs = 1,000 nC: a pulse with a net charge is not written (document 02, \
                 request 13)";
    assert_eq!(count(&text, words), 1);
}

/// A point that flows no time is a ring: it has no area, and is told below.
#[test]
fn no_time() {
    let text = drawn(&[(0, 40), (250, 31), (0, -60), (250, -31)]);
    assert_eq!((boxes(&text, ABOVE).len(), boxes(&text, BELOW).len()), (1, 1));
    assert_eq!(text.matches("<circle").count(), 4);
    assert_eq!(count(&text, "3: 0 µs, -30.0 mA, a ring"), 1);
    let text = drawn(&[(0, 40)]);
    assert_eq!((boxes(&text, ABOVE).len(), text.matches("<circle").count()), (0, 2));
}

/// Sixteen points are all told, if not all at their steps; the shortest is still seen.
#[test]
fn sixteen_points() {
    let points: Vec<(u16, i16)> = (0..16)
        .map(|place| (if place == 3 { 1 } else { 4095 }, if place < 8 { 260 } else { -260 }))
        .collect();
    let text = drawn(&points);
    for place in 1..=16 {
        let (duration, current) = points[place - 1];
        let words = format!("{place}: {duration} µs, {}.0 mA", current / 2);
        assert_eq!(count(&text, &words), 1, "{words}");
    }
    let above = boxes(&text, ABOVE);
    assert_eq!((above.len(), above[3].0), (8, 1));
}

/// Two pulses have the same axes: what is equal is drawn equal.
#[test]
fn two_pulses() {
    let panels = [
        panel("wrong", &[(250, 40), (100, 0), (200, -40)]),
        panel("right", &[(250, 40), (2000, -5)]),
    ];
    let text = svg(&panels);
    assert!(is_well_formed(&text));
    assert_eq!([count(&text, "wrong"), count(&text, "right")], [1, 1]);
    let [wrong, _swatch, right] = boxes(&text, ABOVE)[..] else { panic!("{text}") };
    assert_eq!(wrong, right);
}
