//! The page of the pictures that `check` draws: one file to look at, one entry a map that fails.

use super::svg::escaped;
use crate::commands::Checked;
use crate::failure::Failure;
use crate::file;
use std::path::Path;

/// The most characters of a map's name in that of its picture.
const MOST: usize = 80;

/// The name of a map's picture: its number, and of its own name the letters, digits, dashes and
/// underscores, so that it is a name in the directory of pictures whatever the map is called.
pub fn name(number: usize, map: &Path) -> String {
    let stem = map.file_stem().unwrap_or_default().to_string_lossy();
    let kept = |c: char| match c {
        'a'..='z' | 'A'..='Z' | '0'..='9' | '-' | '_' => c,
        _ => '_',
    };
    let stem: String = stem.chars().take(MOST).map(kept).collect();
    format!("{:04}-{stem}.png", number + 1)
}

/// Writes the page.
pub fn write(directory: &Path, maps: &[Checked]) -> Result<(), Failure> {
    let failed: Vec<&Checked> = maps.iter().filter(|map| !map.verdict.passes()).collect();
    let mut page = String::from(
        "<!DOCTYPE html>\n<html><head><meta charset=\"utf-8\"><title>Maps that do not pass</title>\
         </head>\n<body>\n",
    );
    page += &format!("<h1>{} of {} maps do not pass</h1>\n", failed.len(), maps.len());
    for map in failed {
        page += &entry(map);
    }
    page += "</body></html>\n";
    file::write(&directory.join("index.html"), page.as_bytes())
}

fn entry(map: &Checked) -> String {
    let reason = map.verdict.reason().unwrap_or_default();
    let mut entry = format!("<h2>{}</h2>\n<p>{}</p>\n", escaped(&map.file), escaped(&reason));
    if let Some(picture) = &map.picture {
        entry += &format!("<p><img src=\"{0}\" alt=\"{0}\"></p>\n", escaped(picture));
    }
    entry
}

#[cfg(test)]
mod tests {
    use super::*;

    #[test]
    fn a_picture_stays_in_its_directory() {
        for map in ["../../x.bsp", "/etc/passwd", "..", "a/..", "\u{1b}[2J.bsp", "a b\n.bsp", ""] {
            let name = name(6, Path::new(map));
            assert!(name.starts_with("0007-") && name.ends_with(".png"));
            assert!(name
                .bytes()
                .all(|byte| byte.is_ascii_alphanumeric() || b"-_.".contains(&byte)));
            assert_eq!(Path::new(&name).components().count(), 1);
        }
        assert!(name(0, Path::new(&"x".repeat(300))).len() < 100);
    }
}
