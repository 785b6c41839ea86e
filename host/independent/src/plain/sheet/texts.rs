//! The fields of a pulse behind its channel, with what stands around them. In the highest byte is how
//! many bytes a text has; that of a number out of range is no text.

const NONE: u64 = u64::MAX;

/// "Width 10 to 500", between its commas.
pub static WIDTHS: [u64; 512] = {
    let mut texts = [NONE; 512];
    let mut width = 10;
    while width <= 500 {
        texts[width] = spelt(b",", width, b",");
        width += 1;
    }
    texts
};

/// "Current 1 to 127", and the end of the line.
pub static CURRENTS: [u64; 128] = {
    let mut texts = [NONE; 128];
    let mut current = 1;
    while current <= 127 {
        texts[current] = spelt(b"", current, b",\n");
        current += 1;
    }
    texts
};

#[inline(always)]
pub fn length(text: u64) -> usize {
    (text >> 56) as usize
}

/// The text of a number below 1,000.
const fn spelt(before: &[u8], number: usize, behind: &[u8]) -> u64 {
    let mut text = [0; 8];
    let mut length = 0;
    while length < before.len() {
        text[length] = before[length];
        length += 1;
    }
    let mut unit = 100;
    while unit > 0 {
        if number >= unit {
            text[length] = b'0' + (number / unit % 10) as u8;
            length += 1;
        }
        unit /= 10;
    }
    let mut left = 0;
    while left < behind.len() {
        text[length] = behind[left];
        length += 1;
        left += 1;
    }
    text[7] = length as u8;
    u64::from_le_bytes(text)
}
