//! Where loading refused a file.

use crate::{ffi, Refusal, Section};
use std::fmt;

/// Where loading refuses a file, or none where it loads. It reads the file as
/// [`Map::load`](crate::MapOf::load) does, and the refused section once more; the number is always that of
/// `load`, which is proved of the library.
///
/// ```
/// use bsp29::{load_place, Map, Section};
///
/// let path = concat!(env!("CARGO_MANIFEST_DIR"), "/../../maps/rooms.bsp");
/// let mut file = std::fs::read(path)?;
/// assert_eq!(load_place(&file), None);
///
/// // the contents of leaf 2 become -7, which are none
/// let entry = 4 + 8 * Section::Leaves.number() as usize;
/// let leaves = u32::from_le_bytes(file[entry..entry + 4].try_into()?) as usize;
/// file[leaves + 2 * 28..][..4].copy_from_slice(&(-7i32).to_le_bytes());
/// let place = load_place(&file).unwrap();
/// assert_eq!((place.section, place.record), (Some(Section::Leaves), 2));
/// assert_eq!(place.byte, leaves + 2 * 28);
/// assert_eq!(Map::load(&file).err(), Some(place.refusal));
/// # Ok::<(), Box<dyn std::error::Error>>(())
/// ```
pub fn load_place(file: &[u8]) -> Option<LoadPlace> {
    LoadPlace::from_words(ffi::load_place(file))
}

/// Where loading refused a file: the section, the record in it and the byte of the file at which the reader
/// stood that refused. [`Display`](fmt::Display) says it to a person.
///
/// ```
/// use bsp29::{LoadPlace, Refusal, Section};
///
/// // the words of bsp_load_place
/// let place = LoadPlace::from_words([10, 10, 17, 48_120]).unwrap();
/// assert_eq!((place.refusal, place.section), (Refusal::InvalidField, Some(Section::Leaves)));
/// assert_eq!(
///     place.to_string(),
///     "leaves, record 17, byte 48,120: a field of the file has a value that it may not have"
/// );
/// assert_eq!(LoadPlace::from_words([0; 4]), None);
/// ```
#[derive(Copy, Clone, Debug, PartialEq, Eq, Hash)]
#[non_exhaustive]
pub struct LoadPlace {
    /// Why: what [`Map::load`](crate::MapOf::load) refuses with.
    pub refusal: Refusal,
    /// The section; none where it is the header, or the limits that it breaks.
    pub section: Option<Section>,
    /// The record in that section; in the header the entry of the directory.
    pub record: usize,
    /// The position in the file.
    pub byte: usize,
}

impl LoadPlace {
    /// The place that the four words say: the refusal's number, the section's (15 for the header), the
    /// record and the byte. None where the number is 0: the file loads.
    pub fn from_words(words: [u64; 4]) -> Option<LoadPlace> {
        let [number, section, record, byte] = words;
        (number != 0).then(|| LoadPlace {
            refusal: Refusal::from_number(u32::try_from(number).unwrap_or(u32::MAX)),
            section: u32::try_from(section).ok().and_then(Section::from_number),
            record: record as usize,
            byte: byte as usize,
        })
    }
}

/// A number with a comma before every three digits.
fn grouped(number: usize) -> String {
    let digits = number.to_string();
    let mut text = String::new();
    for (at, digit) in digits.chars().enumerate() {
        if at > 0 && (digits.len() - at) % 3 == 0 {
            text.push(',');
        }
        text.push(digit);
    }
    text
}

impl fmt::Display for LoadPlace {
    fn fmt(&self, f: &mut fmt::Formatter<'_>) -> fmt::Result {
        let section = self.section.map_or("header", Section::name);
        let (record, byte) = (grouped(self.record), grouped(self.byte));
        write!(f, "{section}, record {record}, byte {byte}: {}", self.refusal)
    }
}

impl std::error::Error for LoadPlace {}
