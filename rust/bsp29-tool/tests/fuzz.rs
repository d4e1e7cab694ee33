//! Damaged maps, hostile names and texts: whatever they are, every command ends by itself, with status
//! 0 or 1, prints no control character, and writes no file but the one that it was told.
//!
//! `rust/bsp29-tool/run fuzz N` takes N damaged maps; without it there are few. They are made from the
//! sample maps and those with planted faults by a small generator, the same ones every time.

mod common;

use common::{folder, is_plain, root, status};
use std::collections::BTreeMap;
use std::env;
use std::ffi::OsString;
use std::fs;
use std::os::unix::ffi::OsStringExt;
use std::path::{Path, PathBuf};
use std::process::{Command, Output};
use std::time::Instant;

/// A generator of numbers (xorshift).
struct Random(u64);

impl Random {
    fn next(&mut self) -> u64 {
        self.0 ^= self.0 << 13;
        self.0 ^= self.0 >> 7;
        self.0 ^= self.0 << 17;
        self.0
    }

    fn below(&mut self, limit: usize) -> usize {
        (self.next() % limit.max(1) as u64) as usize
    }
}

/// Numbers that fields like least.
const NUMBERS: [i32; 16] = [
    0,
    1,
    -1,
    2,
    3,
    -2,
    -6,
    -7,
    255,
    32_767,
    32_768,
    65_535,
    -32_768,
    1_000_000,
    i32::MAX,
    i32::MIN,
];

/// Texts that terminals, pages and paths like least.
const TEXTS: [&[u8]; 8] = [
    b"\x1b[2J\x1b[31m",
    b"\xc2\x9b31m\x07\x08\x7f",
    b"</text><script>alert(1)</script>",
    b"../../../x\0/etc/passwd",
    b"%s%n%p{}{0}\\u{1b}",
    "\u{202e}\u{200b}\u{2028}\u{feff}".as_bytes(),
    b"{{{{\"\"\"\"}}}}//\"",
    b"\xff\xfe\xc3\x28",
];

/// A map with some damage.
fn damaged(random: &mut Random, whole: &[u8]) -> Vec<u8> {
    let mut map = whole.to_vec();
    for _ in 0..=random.below(4) {
        let at = random.below(map.len());
        match random.below(9) {
            0 => map[at] ^= 1 << random.below(8),
            1 => map[at] = random.next() as u8,
            2 | 3 => plant(&mut map, at & !1, &NUMBERS[random.below(16)].to_le_bytes()),
            4 => plant(&mut map, at & !1, &(random.below(40) as u16).to_le_bytes()),
            // offset or size of a section
            5 => {
                let number = [random.below(4_000) as i32, NUMBERS[random.below(16)]];
                let number = number[random.below(2)];
                plant(&mut map, 4 + 4 * random.below(30), &number.to_le_bytes());
            }
            6 => plant(&mut map, at, TEXTS[random.below(8)]),
            7 => map.truncate(at),
            _ => plant(&mut map, 124 + random.below(80), TEXTS[random.below(8)]),
        }
        if map.is_empty() {
            return map;
        }
    }
    map
}

fn plant(map: &mut [u8], at: usize, bytes: &[u8]) {
    for (to, from) in map.iter_mut().skip(at).zip(bytes) {
        *to = *from;
    }
}

/// A name for a map, of any bytes but a slash and a zero.
fn hostile_name(random: &mut Random, number: usize) -> OsString {
    let text = TEXTS[random.below(8)];
    let kept = text.iter().filter(|byte| !matches!(byte, b'/' | 0)).copied();
    let name: Vec<u8> = match random.below(3) {
        0 => format!("{number}").into_bytes(),
        1 => kept.chain(format!("{number}").into_bytes()).collect(),
        _ => format!("--{number} \n").into_bytes().into_iter().chain(kept).collect(),
    };
    OsString::from_vec([name, b".bsp".to_vec()].concat())
}

/// The maps that are damaged.
fn wholes() -> Vec<Vec<u8>> {
    let mut paths: Vec<PathBuf> = ["maps", "rust/bsp29-tool/tests/maps"]
        .iter()
        .flat_map(|folder| fs::read_dir(root().join(folder)).unwrap())
        .map(|entry| entry.unwrap().path())
        .filter(|path| path.extension().is_some_and(|end| end == "bsp"))
        .filter(|path| fs::metadata(path).unwrap().len() < 200_000)
        .collect();
    paths.sort();
    paths.iter().map(|path| fs::read(path).unwrap()).collect()
}

/// Runs the tool in a folder under a limit of seconds, and looks at how it ended.
fn tried(args: &[OsString], folder: &Path, limit: usize) -> Output {
    let output = Command::new("timeout")
        .args(["--signal=KILL", &limit.to_string()])
        .arg(env!("CARGO_BIN_EXE_bsp29"))
        .args(args)
        .current_dir(folder)
        .output()
        .unwrap();
    let ended = status(&output);
    assert!(ended == 0 || ended == 1, "{args:?} ended with {ended}");
    for bytes in [&output.stdout, &output.stderr] {
        assert!(is_plain(bytes), "{args:?} printed a control character or no text");
    }
    output
}

/// The commands over one map. `MAP` stands for it, `OUT` for the one file that it may write.
const COMMANDS: [&str; 16] = [
    "info MAP",
    "why MAP",
    "entities MAP",
    "records MAP leaves",
    "records MAP render-nodes 3",
    "at MAP -64 0 0",
    "trace MAP -64,64,0 64,-3,7 --hull 1",
    "tree MAP",
    "vis MAP",
    "textures MAP",
    "diff MAP ../rooms.bsp",
    "picture MAP -o OUT.svg --size 64",
    "picture MAP -o OUT.png --size 64 --hull 2 --trace 0,0,0 nan,1e38,-inf",
    "picture MAP -o OUT.png --size 64 --leaves",
    "picture MAP -o OUT.svg --size 64 --see 1 --height 1e9",
    "check MAP",
];

/// The arguments of a command, after a -- where a name begins with dashes.
fn arguments(command: &str, map: &Path, json: bool) -> Vec<OsString> {
    let place = PathBuf::from(".").join(map);
    let word = |word: &str| match word {
        "MAP" => place.clone().into_os_string(),
        _ => OsString::from(word.replace("OUT", "../out")),
    };
    let mut args: Vec<OsString> = command.split(' ').map(word).collect();
    if json {
        args.push(OsString::from("--json"));
    }
    args
}

fn names(folder: &Path) -> Vec<OsString> {
    let mut names: Vec<OsString> =
        fs::read_dir(folder).unwrap().map(|entry| entry.unwrap().file_name()).collect();
    names.sort();
    names
}

#[test]
fn nothing_in_a_map_harms_the_tool() {
    let count: usize = env::var("BSP29_TOOL_FUZZ").map_or(40, |count| count.parse().unwrap());
    let folder = root().join(folder("fuzz"));
    let maps = folder.join("maps");
    fs::create_dir(&maps).unwrap();
    fs::copy(root().join("maps/rooms.bsp"), folder.join("rooms.bsp")).unwrap();
    let (wholes, mut random) = (wholes(), Random(0x29));
    for number in 0..count {
        let whole = &wholes[number % wholes.len()];
        let name = hostile_name(&mut random, number);
        fs::write(maps.join(name), damaged(&mut random, whole)).unwrap();
    }
    let all = names(&maps);
    assert_eq!(all.len(), count);
    one_by_one(&all, &folder, &maps);
    all_at_once(count, &folder, &maps);
}

/// Every command over every map, or over as many as take a few minutes.
fn one_by_one(all: &[OsString], folder: &Path, maps: &Path) {
    let started = Instant::now();
    let (mut runs, mut ended) = (0, [0; 2]);
    for (number, name) in all.iter().enumerate() {
        for (which, command) in COMMANDS.iter().enumerate() {
            // of many maps each has some of the commands, and all commands have as many maps
            if all.len() > 500 && (number + which) % 4 != 0 {
                continue;
            }
            let json = (number + which / 4) % 2 == 0;
            let args = arguments(command, Path::new(name), json);
            let output = tried(&args, maps, 60);
            if json {
                let said: Result<serde_json::Value, _> = serde_json::from_slice(&output.stdout);
                assert!(said.is_ok(), "{args:?}: no JSON");
            }
            runs += 1;
            ended[status(&output) as usize] += 1;
        }
    }
    let mut due = vec!["maps", "out.png", "out.svg", "rooms.bsp"];
    due.sort();
    assert_eq!(names(folder), due, "a file was written that nobody asked for");
    assert_eq!(names(maps), all, "a file was written beside the maps");
    println!(
        "{} maps, {runs} runs of a command: {} ended with 0, {} with 1, in {:.0} s",
        all.len(),
        ended[0],
        ended[1],
        started.elapsed().as_secs_f32()
    );
}

/// All maps in one call, with pictures: what it says of them, and that every refusal has its place.
fn all_at_once(count: usize, folder: &Path, maps: &Path) {
    let started = Instant::now();
    let args = ["check", ".", "--pictures", "../pictures", "--json"].map(OsString::from);
    let output = tried(&args, maps, 60 + count);
    let said: serde_json::Value = serde_json::from_slice(&output.stdout).unwrap();
    let verdicts = said["maps"].as_array().unwrap();
    assert_eq!(verdicts.len(), count);
    let mut numbers: BTreeMap<String, usize> = BTreeMap::new();
    let mut pictures = 0;
    for map in verdicts {
        let word = map["verdict"].as_str().unwrap();
        assert!(matches!(word, "passes" | "load" | "accept"), "{map}");
        assert!(word == "passes" || map["place"].is_object(), "{map}: no place");
        assert_eq!(map["picture"].is_string(), word != "passes", "{map}");
        pictures += usize::from(map["picture"].is_string());
        *numbers.entry(format!("{word} {}", map["number"])).or_default() += 1;
    }
    assert_eq!(names(&folder.join("pictures")).len(), pictures + 1);
    println!("check of all: {numbers:?}, {:.1} s", started.elapsed().as_secs_f32());
}
