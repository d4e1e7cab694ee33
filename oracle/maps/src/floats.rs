//! Floats, vectors and unit vectors from a seed, with special ones among them.

use crate::Seed;

/// Floats at which something may change.
pub const SPECIAL: [f32; 44] = [
    0.0,
    -0.0,
    1.0,
    -1.0,
    f32::INFINITY,
    f32::NEG_INFINITY,
    f32::NAN,
    f32::from_bits(1),
    f32::from_bits(0x8000_0001),
    f32::from_bits(0x007f_ffff),
    f32::from_bits(0x807f_ffff),
    f32::MIN_POSITIVE,
    -f32::MIN_POSITIVE,
    f32::MAX,
    f32::MIN,
    0.5,
    -0.5,
    1.5,
    2.0,
    -2.0,
    3.0,
    f32::from_bits(0x3f80_0001),
    f32::from_bits(0x3f7f_ffff),
    f32::from_bits(0xbf80_0001),
    f32::from_bits(0xbf7f_ffff),
    0.577_350_26,
    0.707_106_77,
    -0.707_106_77,
    16.0,
    -16.0,
    32767.0,
    32768.0,
    -32768.0,
    -32769.0,
    8_388_607.5,
    8_388_608.0,
    -8_388_608.5,
    16_777_216.0,
    1.0e19,
    1.9e19,
    2.6e-23,
    2.7e-23,
    1.0e-38,
    3.0e38,
];

/// The fewest that matter, for every combination of several places.
pub const CORE: [f32; 8] =
    [0.0, -0.0, 1.0, -1.0, f32::INFINITY, f32::NEG_INFINITY, f32::NAN, f32::from_bits(1)];

pub fn special(seed: &mut Seed) -> f32 {
    SPECIAL[seed.below(SPECIAL.len() as u64) as usize]
}

/// A float at most `most` units in the last place away.
pub fn nudged(seed: &mut Seed, x: f32, most: u32) -> f32 {
    let by = seed.below(2 * most as u64 + 1) as i64 - most as i64;
    f32::from_bits((x.to_bits() as i64 + by) as u32)
}

/// A float from -1/2 to 1/2.
pub fn half(seed: &mut Seed) -> f32 {
    seed.next() as u32 as f32 / 4_294_967_296.0 - 0.5
}

/// Any float, special ones often.
pub fn float(seed: &mut Seed) -> f32 {
    match seed.below(8) {
        0 | 1 => special(seed),
        2 => f32::from_bits(seed.next() as u32),
        3 => {
            let x = special(seed);
            nudged(seed, x, 2)
        }
        4 => (seed.below(8193) as f32) - 4096.0,
        5 => ((seed.below(65_537) as f32) - 32_768.0) / 8.0,
        6 => {
            let exponent = (100 + seed.below(55)) as u32;
            f32::from_bits((seed.next() as u32 & 0x807f_ffff) | exponent << 23)
        }
        _ => half(seed) * 8192.0,
    }
}

/// A coordinate as a map has it, a special float once in `wild` (never for 0).
pub fn coordinate(seed: &mut Seed, wild: u64) -> f32 {
    if wild > 0 && seed.once_in(wild) {
        return float(seed);
    }
    match seed.below(3) {
        0 => seed.below(257) as f32 - 128.0,
        1 => (seed.below(2049) as f32 - 1024.0) / 8.0,
        _ => half(seed) * 256.0,
    }
}

/// A vector of length 1, rounded to f32.
pub fn unit(seed: &mut Seed) -> [f32; 3] {
    loop {
        let mut part = || seed.next() as u32 as f64 / 2_147_483_648.0 - 1.0;
        let (x, y, z) = (part(), part(), part());
        let length = (x * x + y * y + z * z).sqrt();
        if length > 0.01 {
            return [(x / length) as f32, (y / length) as f32, (z / length) as f32];
        }
    }
}

/// Normals: exact units with zeros of either sign, units turned round, near units, and vectors that
/// are too long, too short or no numbers.
pub fn normal(seed: &mut Seed) -> [f32; 3] {
    let axis = seed.below(3) as usize;
    let mut zeros = [0.0f32; 3];
    for zero in zeros.iter_mut() {
        if seed.once_in(2) {
            *zero = -0.0;
        }
    }
    match seed.below(12) {
        0 | 1 => zeros[axis] = 1.0,
        2 => zeros[axis] = -1.0,
        3 => zeros[axis] = nudged(seed, 1.0, 3),
        4 => {
            zeros[axis] = 1.0;
            zeros[(axis + 1) % 3] = float(seed);
        }
        10 => zeros[axis] = float(seed),
        kind => return slanted(seed, kind),
    }
    zeros
}

/// The normals that lie along no axis.
fn slanted(seed: &mut Seed, kind: u64) -> [f32; 3] {
    match kind {
        5 | 6 => unit(seed),
        7 => {
            let n = unit(seed);
            [nudged(seed, n[0], 4), nudged(seed, n[1], 4), nudged(seed, n[2], 4)]
        }
        8 => {
            // the lengths at which a square or its root leaves the numbers
            let low = if seed.once_in(2) { 62 } else { -76 };
            let size = 2.0f32.powi(low + seed.below(5) as i32);
            unit(seed).map(|x| x * size)
        }
        9 => {
            let size = 2.0f32.powi(seed.below(250) as i32 - 125);
            unit(seed).map(|x| x * size)
        }
        _ => [float(seed), float(seed), float(seed)],
    }
}

/// The bits of a float, every NaN as one. The test is on the bits: rustc 1.95 was seen to drop the
/// choice `if x.is_nan() { 0x7fc00000 } else { x.to_bits() }` behind an inlined root.
#[inline(always)]
pub fn bits(x: f32) -> u32 {
    let bits = x.to_bits();
    if bits & 0x7fff_ffff > 0x7f80_0000 {
        0x7fc0_0000
    } else {
        bits
    }
}

/// Floats for a message: value and bits.
pub fn show(floats: &[f32]) -> String {
    let parts: Vec<String> =
        floats.iter().map(|x| format!("{:e} ({:08x})", x, x.to_bits())).collect();
    parts.join(", ")
}
