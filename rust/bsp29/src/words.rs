//! Words taken apart: numbers, floats and points.

/// The float of a word's low 32 bits.
#[inline]
pub(crate) fn float(word: u64) -> f32 {
    f32::from_bits(word as u32)
}

/// Three floats from a place on.
#[inline]
pub(crate) fn floats(words: &[u64], at: usize) -> [f32; 3] {
    [float(words[at]), float(words[at + 1]), float(words[at + 2])]
}

/// Three signed numbers from a place on.
#[inline]
pub(crate) fn shorts(words: &[u64], at: usize) -> [i16; 3] {
    [words[at] as i16, words[at + 1] as i16, words[at + 2] as i16]
}

/// An offset, of which 2^64 - 1 says that there is none.
#[inline]
pub(crate) fn offset(word: u64) -> Option<usize> {
    if word == u64::MAX {
        None
    } else {
        Some(word as usize)
    }
}

/// A float as the library would answer it: every NaN is one.
#[inline]
pub(crate) fn one_nan(x: f32) -> f32 {
    if x.is_nan() {
        f32::NAN
    } else {
        x
    }
}
