//! Fields of bits, the first named in the highest.

use nom::bits::bits;
use nom::bits::complete::take;
use nom::error::Error;
use nom::IResult;

/// How many bits each field has; together they are whole bytes.
pub type Layout<const N: usize> = [usize; N];

/// The fields that stand first in these bytes.
pub fn fields<const N: usize>(layout: Layout<N>) -> impl Fn(&[u8]) -> IResult<&[u8], [u16; N]> {
    move |bytes| {
        bits::<_, _, Error<(&[u8], usize)>, _, _>(|mut rest| {
            let mut values = [0; N];
            for (value, width) in values.iter_mut().zip(layout) {
                (rest, *value) = take(width)(rest)?;
            }
            Ok((rest, values))
        })(bytes)
    }
}

/// The bytes of these fields. A value loses what its field has no room for.
pub fn bytes<const N: usize>(layout: Layout<N>, values: [u16; N]) -> Vec<u8> {
    let field = |(width, value): (usize, u16)| {
        (0..width).rev().map(move |place| u8::from(value >> place & 1 == 1))
    };
    let bits: Vec<u8> = layout.into_iter().zip(values).flat_map(field).collect();
    bits.chunks(8).map(|byte| byte.iter().fold(0, |byte, bit| byte << 1 | bit)).collect()
}
