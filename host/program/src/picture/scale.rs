//! How tall a current is drawn.

/// The strongest current of a frame, in milliamps.
const STRONGEST: u32 = 127;

/// A pulse of the weakest current is still seen.
const LEAST: i32 = 2;

/// A lane's currents, from 0 to a full one.
pub struct Scale {
    pub full: u32,
}

impl Scale {
    /// A scale that has room for this current: the same for all that a frame can name, and one of
    /// 200, 500, 1,000, 2,000 and so on for a current that no unit may send.
    pub fn for_current(highest: u16) -> Scale {
        let highest = u32::from(highest);
        let steps = (2..).flat_map(|power| [1, 2, 5].map(|first| first * 10u32.pow(power)));
        let mut fulls = [STRONGEST].into_iter().chain(steps);
        let full = fulls.find(|full| highest <= *full).unwrap_or(highest);
        Scale { full }
    }

    pub fn is_wider(&self) -> bool {
        self.full > STRONGEST
    }

    /// The height of a current's bar where a full one has this many pixels.
    pub fn height(&self, current: u16, pixels: i32) -> i32 {
        let part = f64::from(current) / f64::from(self.full);
        ((part * f64::from(pixels)).round() as i32).max(LEAST)
    }
}

#[cfg(test)]
mod tests {
    use super::Scale;

    #[test]
    fn scales() {
        let full = |current| Scale::for_current(current).full;
        assert_eq!([0, 127, 128, 200, 201, 41_200].map(full), [127, 127, 200, 200, 500, 50_000]);
        assert_eq!(full(u16::MAX), 100_000);
    }

    #[test]
    fn heights() {
        let scale = Scale::for_current(40);
        assert_eq!([0, 1, 10, 127].map(|current| scale.height(current, 38)), [2, 2, 3, 38]);
        assert_eq!(Scale::for_current(41_200).height(25_000, 38), 19);
    }
}
