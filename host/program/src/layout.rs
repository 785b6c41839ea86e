//! Fields in a row of bits, and what of them lies in each byte.

/// Fields with their numbers of bits, most significant bit first.
pub type Row<F> = &'static [(F, usize)];

/// A field at its place, whose bits are counted from the front.
pub struct Place<F> {
    pub field: F,
    /// Which entry's it is, counted from 1; 0 if it stands once.
    pub entry: usize,
    begin: usize,
    end: usize,
    /// How many bits of each byte hold fields: its low ones.
    breadth: usize,
}

/// The bits of a field that lie in one byte: their mask there, and their numbers in the field.
pub struct Span {
    pub mask: u8,
    pub highest: usize,
    pub lowest: usize,
}

/// The places of fields that stand once, and behind them of those of so many entries, over so many
/// low bits of each byte.
pub fn places<F: Copy>(once: Row<F>, each: Row<F>, count: usize, breadth: usize) -> Vec<Place<F>> {
    let entries = (1..=count).flat_map(|entry| each.iter().map(move |field| (entry, field)));
    let mut end = 0;
    once.iter()
        .map(|field| (0, field))
        .chain(entries)
        .map(|(entry, (field, size))| {
            let begin = end;
            end += size;
            Place { field: *field, entry, begin, end, breadth }
        })
        .collect()
}

/// How many bytes they have.
pub fn length<F>(places: &[Place<F>]) -> usize {
    places.last().map_or(0, |last| last.end / last.breadth)
}

impl<F> Place<F> {
    /// The number of its bits.
    pub fn size(&self) -> usize {
        self.end - self.begin
    }

    /// The byte in which it begins, counted from 0.
    pub fn first(&self) -> usize {
        self.begin / self.breadth
    }

    /// What of it lies in a byte, which is counted from 0.
    pub fn span(&self, byte: usize) -> Option<Span> {
        let (from, to) = (self.breadth * byte, self.breadth * (byte + 1));
        let (begin, end) = (self.begin.max(from), self.end.min(to));
        if begin >= end {
            return None;
        }
        let mask = (0xFF >> (8 - (end - begin))) << (to - end);
        Some(Span { mask, highest: self.end - begin - 1, lowest: self.end - end })
    }

    /// Its value, as far as the bytes go: bits that they do not have are clear.
    pub fn value(&self, bytes: &[u8]) -> u16 {
        let parts = bytes.iter().enumerate().filter_map(|(place, byte)| {
            let span = self.span(place)?;
            Some(u16::from((byte & span.mask) >> span.mask.trailing_zeros()) << span.lowest)
        });
        parts.sum()
    }

    /// How many of its bits, which are its lowest ones, are not in this number of bytes.
    pub fn missing(&self, bytes: usize) -> usize {
        self.end.saturating_sub(self.breadth * bytes).min(self.size())
    }
}

/// Bits of a field by their numbers in it.
pub fn numbered(highest: usize, lowest: usize) -> String {
    match highest - lowest {
        0 => format!("bit {lowest}"),
        1 => format!("bits {highest},{lowest}"),
        _ => format!("bits {highest} to {lowest}"),
    }
}
