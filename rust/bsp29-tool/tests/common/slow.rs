//! A small file that takes long to load: every face names the same 32,767 entries of the edge list,
//! each of which is read for each face.

const FACES: usize = 193_000;
const ENTRIES: u16 = 32_767;

/// The bytes of the file.
pub fn map() -> Vec<u8> {
    let face: Vec<u8> =
        [vec![0; 8], ENTRIES.to_le_bytes().to_vec(), vec![0; 6], vec![0xff; 4]].concat();
    let one = 1_f32.to_le_bytes();
    let section = |number: usize| match number {
        0 => vec![0],
        1 => [one.to_vec(), vec![0; 16]].concat(),
        2 => [1_i32.to_le_bytes(), (-1_i32).to_le_bytes()].concat(),
        3 => vec![0; 12],
        6 => [one.to_vec(), vec![0; 16], one.to_vec(), vec![0; 16]].concat(),
        7 => face.repeat(FACES),
        12 => vec![0; 4],
        13 => vec![0; 4 * usize::from(ENTRIES)],
        14 => vec![0; 64],
        _ => Vec::new(),
    };
    let (mut header, mut body) = (29_i32.to_le_bytes().to_vec(), Vec::new());
    for section in (0..15).map(section) {
        let offset = if section.is_empty() { 0 } else { 124 + body.len() };
        header.extend((offset as i32).to_le_bytes());
        header.extend((section.len() as i32).to_le_bytes());
        body.extend(section);
    }
    [header, body].concat()
}
