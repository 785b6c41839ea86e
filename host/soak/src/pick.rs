//! Small choices.

use rand::rngs::SmallRng;
use rand::Rng;

/// One of these.
pub fn any<T: Copy>(rng: &mut SmallRng, these: &[T]) -> T {
    these[rng.gen_range(0..these.len())]
}

/// True one time in `times`.
pub fn once_in(rng: &mut SmallRng, times: u32) -> bool {
    rng.gen_range(0..times) == 0
}

/// The place of a weight, each as often as its weight says.
pub fn weighted(rng: &mut SmallRng, weights: &[u32]) -> usize {
    let mut left = rng.gen_range(0..weights.iter().sum());
    weights
        .iter()
        .position(|&weight| match left.checked_sub(weight) {
            Some(rest) => {
                left = rest;
                false
            }
            None => true,
        })
        .expect("what was chosen is below the sum")
}
