//! `textures`: their names and sizes, and the frames of the animated ones.

use crate::args::OneFile;
use crate::failure::Failure;
use crate::map::{Map, Source};
use crate::out::{self, Report};
use crate::text::{path_text, plain_bytes, Plain};
use bsp29::Refusal;
use serde::Serialize;
use std::collections::BTreeMap;
use std::io::{self, Write};

#[derive(Serialize)]
struct Textures {
    file: String,
    textures: Vec<Texture>,
    animations: Vec<Animation>,
}

#[derive(Serialize)]
struct Texture {
    index: usize,
    /// None where the texture is absent.
    name: Option<String>,
    width: Option<u32>,
    height: Option<u32>,
}

/// The frames of one stem, by the numbers of their textures in the file, each group in the order of
/// the frames.
#[derive(Serialize)]
struct Animation {
    stem: String,
    primary: Vec<usize>,
    alternate: Vec<usize>,
}

/// Lists the textures.
pub fn run(args: &OneFile, json: bool) -> Result<u8, Failure> {
    let source = Source::read(&args.file)?;
    let map = source.map()?;
    let textures =
        textures(&map).map_err(|refusal| Failure::refused(&source.path, "a texture", refusal))?;
    let animations = animations(&textures);
    out::print(&Textures { file: path_text(&source.path), textures, animations }, json)?;
    Ok(crate::YES)
}

fn textures(map: &Map<'_>) -> Result<Vec<Texture>, Refusal> {
    let one = |index| {
        let texture = map.texture(index)?;
        Ok(Texture {
            index,
            name: texture.map(|texture| name(&texture.name)),
            width: texture.map(|texture| texture.width),
            height: texture.map(|texture| texture.height),
        })
    };
    (0..map.texture_count()).map(one).collect()
}

/// A name up to its first zero.
fn name(bytes: &[u8; 16]) -> String {
    let length = bytes.iter().position(|byte| *byte == 0).unwrap_or(bytes.len());
    plain_bytes(&bytes[..length])
}

/// The animations, by their stems. A name of a map that loads which starts with + has a frame, 0 to 9
/// or a to j, and then its stem.
fn animations(textures: &[Texture]) -> Vec<Animation> {
    let mut stems: BTreeMap<&str, [Vec<(char, usize)>; 2]> = BTreeMap::new();
    for texture in textures {
        let rest = texture.name.as_deref().and_then(|name| name.strip_prefix('+'));
        let mut letters = rest.unwrap_or("").chars();
        if let Some(frame) = letters.next() {
            let group = usize::from(!frame.is_ascii_digit());
            let groups = stems.entry(letters.as_str()).or_default();
            groups[group].push((frame, texture.index));
        }
    }
    let frames = |mut group: Vec<(char, usize)>| {
        group.sort();
        group.into_iter().map(|(_, index)| index).collect()
    };
    let animation = |(stem, [primary, alternate]): (&str, [Vec<_>; 2])| Animation {
        stem: stem.to_string(),
        primary: frames(primary),
        alternate: frames(alternate),
    };
    stems.into_iter().map(animation).collect()
}

impl Report for Textures {
    fn text(&self, out: &mut dyn Write) -> io::Result<()> {
        for texture in &self.textures {
            match (&texture.name, texture.width, texture.height) {
                (Some(name), Some(width), Some(height)) => {
                    writeln!(out, "texture {}  {name}  {width} x {height}", texture.index)?;
                }
                _ => writeln!(out, "texture {}  absent", texture.index)?,
            }
        }
        for animation in &self.animations {
            let list = |frames: &[usize]| {
                frames.iter().map(|frame| format!(" {frame}")).collect::<String>()
            };
            write!(
                out,
                "animation {}  frames{}",
                Plain(&animation.stem),
                list(&animation.primary)
            )?;
            match animation.alternate.as_slice() {
                [] => writeln!(out)?,
                frames => writeln!(out, ", alternate{}", list(frames))?,
            }
        }
        let absent = self.textures.iter().filter(|texture| texture.name.is_none()).count();
        let (all, animated) = (self.textures.len(), self.animations.len());
        writeln!(out, "{all} textures, {absent} of them absent; {animated} animations")
    }
}

#[cfg(test)]
mod tests {
    use super::*;

    #[test]
    fn frames_stand_in_their_order() {
        let texture = |(index, name): (usize, &str)| Texture {
            index,
            name: Some(name.to_string()),
            width: None,
            height: None,
        };
        let names = ["+1x", "wall", "+ax", "+0x", "+0y", "+0x"];
        let textures: Vec<Texture> = names.into_iter().enumerate().map(texture).collect();
        let found = animations(&textures);
        assert_eq!(found.len(), 2);
        assert_eq!((found[0].stem.as_str(), &found[0].primary[..]), ("x", &[3, 5, 0][..]));
        assert_eq!((&found[0].alternate[..], &found[1].primary[..]), (&[2][..], &[4][..]));
    }
}
