//! Little-endian fields at a position.

use super::Answer;

/// A position in a file. A field that the file does not hold whole is refused with 1.
pub struct Reader<'a> {
    pub file: &'a [u8],
    pub at: u64,
}

impl<'a> Reader<'a> {
    pub fn new(file: &'a [u8], at: u64) -> Reader<'a> {
        Reader { file, at }
    }

    fn bytes<const N: usize>(&mut self) -> Answer<[u8; N]> {
        let end = self.at + N as u64;
        if end > self.file.len() as u64 {
            return Err(1);
        }
        let mut out = [0; N];
        out.copy_from_slice(&self.file[self.at as usize..end as usize]);
        self.at = end;
        Ok(out)
    }

    pub fn u8(&mut self) -> Answer<u8> {
        Ok(self.bytes::<1>()?[0])
    }

    pub fn i16(&mut self) -> Answer<i16> {
        Ok(i16::from_le_bytes(self.bytes()?))
    }

    pub fn u16(&mut self) -> Answer<u16> {
        Ok(u16::from_le_bytes(self.bytes()?))
    }

    pub fn i32(&mut self) -> Answer<i32> {
        Ok(i32::from_le_bytes(self.bytes()?))
    }

    pub fn f32(&mut self) -> Answer<f32> {
        Ok(f32::from_le_bytes(self.bytes()?))
    }

    pub fn three_f32(&mut self) -> Answer<[f32; 3]> {
        Ok([self.f32()?, self.f32()?, self.f32()?])
    }

    pub fn three_i16(&mut self) -> Answer<[i16; 3]> {
        Ok([self.i16()?, self.i16()?, self.i16()?])
    }

    /// A field that may not be negative (10).
    pub fn not_negative(&mut self) -> Answer<u64> {
        let field = self.i32()?;
        if field < 0 {
            return Err(10);
        }
        Ok(field as u64)
    }

    /// A field of which -1 says none and less is refused (10).
    pub fn or_none(&mut self) -> Answer<Option<u64>> {
        let field = self.i32()?;
        if field < -1 {
            return Err(10);
        }
        Ok(if field == -1 { None } else { Some(field as u64) })
    }
}

/// Whether a contents code exists: 1 to 5 and 9 to 14, and 6 for sky (document 02, note 1).
pub fn is_contents(code: i64) -> bool {
    (1..=6).contains(&code) || (9..=14).contains(&code)
}

/// The bits of a float in a word, every NaN as one. The test is on the bits.
pub fn float_word(x: f32) -> u64 {
    let bits = x.to_bits();
    if bits & 0x7fff_ffff > 0x7f80_0000 {
        0x7fc0_0000
    } else {
        bits as u64
    }
}

/// A signed field in a word: two's complement in 64 bits.
pub fn signed_word(x: i16) -> u64 {
    x as i64 as u64
}
