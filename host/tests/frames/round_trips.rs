//! Reading what was written, and writing what was read, through the exports alone. Only the mask of
//! the don't-care bits comes from the independent codec's tables.

use crate::agree::ours;
use crate::random;
use rand::Rng;
use yarrowbell::{read, write, Frame};

#[test]
fn written_then_read() {
    random::seeded(0..250_000, |rng| {
        for kind in random::KINDS {
            let count = rng.gen_range(1..=8);
            let command = ours(&random::good(rng, kind, count));
            let mut out = [0; 25];
            let used = write(&command, count, &mut out).expect("the values are good");
            assert_eq!(read(&out[..used], count), Ok(Frame { command, used }));
            assert_eq!(read(&out, count), Ok(Frame { command, used }));
        }
    });
}

#[test]
fn read_then_written() {
    random::seeded(300_000..550_000, |rng| {
        for kind in random::KINDS {
            let count = rng.gen_range(1..=8);
            let frame = random::framed(&random::good(rng, kind, count), count);
            let mut bytes = random::stirred(rng, kind, count, &frame);
            bytes.extend(random::bytes(rng, 8));
            let Frame { command, used } = read(&bytes, count).expect("the frame is good");
            let free = independent::free_bits(kind, count);
            assert_eq!(used, free.len());
            let cleared: Vec<u8> =
                bytes.iter().zip(free).map(|(byte, free)| byte & !free).collect();
            let mut out = [0; 25];
            assert_eq!(write(&command, count, &mut out), Ok(used));
            assert_eq!(out[..used], cleared);
        }
    });
}
