//! Note 10 of document 02: the hall's own body sizes.

use super::fields::float_word;
use super::*;

/// The bytes of a body: mins, then maxs, six floats.
const BODY: usize = 24;

/// A hull's mins, then its maxs.
pub type Bounds = [f32; 6];

/// The fields of a file, each a tag and its value: one byte of tag, two bytes of length, the lowest
/// first, and the value. 26 where one is cut short.
fn fields(mut rest: &[u8]) -> Answer<Vec<(u8, &[u8])>> {
    let mut found = Vec::new();
    while let Some((&tag, behind)) = rest.split_first() {
        let (length, behind) = behind.split_at_checked(2).ok_or(26u32)?;
        let length = u16::from_le_bytes([length[0], length[1]]) as usize;
        let (value, behind) = behind.split_at_checked(length).ok_or(26u32)?;
        found.push((tag, value));
        rest = behind;
    }
    Ok(found)
}

/// The bounds of hull 1 and of hull 2: a field of tag 1 and one of tag 2, each exactly once, in either
/// order. First 26, over the whole file; then 27.
pub fn parse(file: &[u8]) -> Answer<[Bounds; 2]> {
    let mut values = [None, None];
    for (tag, value) in fields(file)? {
        let place = match tag {
            1 => &mut values[0],
            2 => &mut values[1],
            _ => return Err(26),
        };
        if value.len() != BODY || place.is_some() {
            return Err(26);
        }
        *place = Some(value);
    }
    let [Some(one), Some(two)] = values else { return Err(26) };
    let sizes = [one, two].map(|value| {
        let mut bounds = [0.0; 6];
        for (bound, bytes) in bounds.iter_mut().zip(value.chunks(4)) {
            *bound = f32::from_le_bytes(bytes.try_into().expect("four bytes"));
        }
        bounds
    });
    match sizes.iter().all(is_body) {
        true => Ok(sizes),
        false => Err(27),
    }
}

/// Every bound is finite, and each minimum is below its maximum.
fn is_body(bounds: &Bounds) -> bool {
    bounds.iter().all(|bound| bound.is_finite()) && (0..3).all(|at| bounds[at] < bounds[at + 3])
}

/// The twelve words of the sizes.
pub fn words(sizes: &[Bounds; 2]) -> Vec<u64> {
    sizes.concat().into_iter().map(float_word).collect()
}

impl Map<'_> {
    /// The words of a model's hull with these sizes, twelve words as they stand: the rows of hull 1 and
    /// hull 2 are theirs; hull 0 has zeros still.
    pub fn sized_hull_words(&self, sizes: &[u64], model: u64, index: u64) -> Answer<Vec<u64>> {
        let mut out = self.hull_words(model, index)?;
        if index > 0 {
            let first = 6 * (index as usize - 1);
            for (word, size) in out[3..9].iter_mut().zip(&sizes[first..first + 6]) {
                *word = float_word(f32::from_bits(*size as u32));
            }
        }
        Ok(out)
    }
}
