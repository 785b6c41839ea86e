//! What stands between the bytes of a stream: packets, the fields of their header, stuffed bytes.

use super::{is_stuffed, KEY, START, STOP, STUFFING};
use nom::branch::alt;
use nom::bytes::complete::{tag, take, take_while1};
use nom::combinator::{all_consuming, map, opt, peek, recognize, value, verify};
use nom::multi::{many0, many0_count};
use nom::number::complete::u8;
use nom::sequence::{delimited, pair, preceded, terminated};
use nom::{Finish, IResult};

/// Bytes that neither start nor stop a packet. One straight after 81 does neither, whatever it is.
fn silent(bytes: &[u8]) -> IResult<&[u8], &[u8]> {
    let stuffed = recognize(pair(take_while1(|byte| byte == STUFFING), opt(take(1usize))));
    let other = take_while1(|byte| !is_stuffed(byte));
    alt((stuffed, other))(bytes)
}

fn within(bytes: &[u8]) -> IResult<&[u8], &[u8]> {
    recognize(many0_count(silent))(bytes)
}

/// What stands between the start and the stop of the first packet that has a stop. A stop where no
/// packet is open is garbage; another start drops the packet that is open.
fn first(bytes: &[u8]) -> IResult<&[u8], &[u8]> {
    let garbage = many0_count(alt((silent, tag([STOP]))));
    let dropped = many0_count(terminated(pair(tag([START]), within), peek(tag([START]))));
    let packet = delimited(tag([START]), within, tag([STOP]));
    preceded(pair(garbage, dropped), packet)(bytes)
}

/// What stands between the start and the stop of the first packet, and how many bytes there are to
/// its stop.
pub fn packet(bytes: &[u8]) -> Option<(&[u8], usize)> {
    let (rest, content) = first(bytes).finish().ok()?;
    Some((content, bytes.len() - rest.len()))
}

/// A byte that is "always stuffed, therefore 2 bytes long", and what follows it.
pub fn always_stuffed(bytes: &[u8]) -> Option<(u8, &[u8])> {
    let byte = map(u8::<&[u8], nom::error::Error<&[u8]>>, |byte| byte ^ KEY);
    let (rest, byte) = preceded(tag([STUFFING]), byte)(bytes).finish().ok()?;
    Some((byte, rest))
}

/// The bytes that were stuffed to these, if any were.
pub fn unstuffed(bytes: &[u8]) -> Option<Vec<u8>> {
    let byte = alt((
        value(START, tag([STUFFING, START ^ KEY])),
        value(STOP, tag([STUFFING, STOP ^ KEY])),
        value(STUFFING, tag([STUFFING, STUFFING ^ KEY])),
        verify(u8::<&[u8], nom::error::Error<&[u8]>>, |byte| !is_stuffed(*byte)),
    ));
    whole(many0(byte), bytes)
}

/// What the data is, with no byte left over.
pub fn whole<'a, T>(
    what: impl FnMut(&'a [u8]) -> IResult<&'a [u8], T>,
    data: &'a [u8],
) -> Option<T> {
    let (_, found) = all_consuming(what)(data).finish().ok()?;
    Some(found)
}
