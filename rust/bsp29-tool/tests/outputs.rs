//! The tool over the sample maps and maps with planted faults, beside stored outputs. With
//! BSP29_TOOL_STORE=1 the outputs are stored; look at what changed before they are committed.

mod common;

use common::{folder, is_plain, root, run, status};
use std::env;
use std::fs;
use std::path::PathBuf;

/// The outputs that are stored: a name, and the arguments. @ stands for the maps with faults.
const CASES: &[(&str, &str)] = &[
    ("info-rooms", "info maps/rooms.bsp"),
    ("info-contents", "info @/contents.bsp"),
    ("check", "check maps/rooms.bsp maps/smallest.bsp maps/yard.bsp @"),
    ("check-quiet", "check -q maps/rooms.bsp maps/smallest.bsp"),
    ("check-passes", "check maps/rooms.bsp maps/yard.bsp"),
    ("why-rooms", "why maps/rooms.bsp"),
    ("why-loop", "why @/loop.bsp"),
    ("why-row", "why @/row.bsp"),
    ("why-contents", "why @/contents.bsp"),
    ("why-cut", "why @/cut.bsp"),
    ("entities-rooms", "entities maps/rooms.bsp --class func_*"),
    ("entities-hostile", "entities @/hostile.bsp"),
    ("records-leaves", "records maps/rooms.bsp leaves"),
    ("records-face", "records maps/rooms.bsp faces 1"),
    ("records-cut", "records @/cut.bsp models"),
    ("at-rooms", "at maps/rooms.bsp -64 0 0"),
    ("at-yard", "at maps/yard.bsp 0 0 100"),
    ("at-loop", "at @/loop.bsp 0 0 0"),
    ("trace-wall", "trace maps/rooms.bsp -64,64,0 64,64,0 --hull 1"),
    ("trace-free", "trace maps/rooms.bsp -100,-90,0 100,60,0"),
    ("trace-solid", "trace maps/rooms.bsp 0,100,0 0,120,0"),
    ("tree-rooms", "tree maps/rooms.bsp"),
    ("tree-loop", "tree @/loop.bsp"),
    ("vis-rooms", "vis maps/rooms.bsp"),
    ("vis-row", "vis @/row.bsp"),
    ("vis-leaf", "vis maps/rooms.bsp --leaf 3"),
    ("textures", "textures @/textures.bsp"),
    ("why-lock", "why maps/lock.bsp"),
    ("entities-lock", "entities maps/lock.bsp --class func_*"),
    ("textures-lock", "textures maps/lock.bsp"),
    ("tree-corridors", "tree maps/corridors.bsp"),
    ("at-corridors", "at maps/corridors.bsp 1000 500 64"),
    ("trace-court", "trace maps/court.bsp -700,-500,80 700,560,80"),
    ("diff-same", "diff maps/rooms.bsp maps/rooms.bsp"),
    ("diff-loop", "diff maps/rooms.bsp @/loop.bsp"),
    ("diff-yard", "diff maps/rooms.bsp maps/yard.bsp"),
];

fn arguments(line: &str) -> Vec<String> {
    line.split(' ').map(|word| word.replace('@', "rust/bsp29-tool/tests/maps")).collect()
}

fn expected(name: &str) -> PathBuf {
    root().join("rust/bsp29-tool/tests/expected").join(name)
}

/// Compares an output with the stored one, or stores it.
fn compare(name: &str, found: &[u8]) {
    if env::var_os("BSP29_TOOL_STORE").is_some() {
        return fs::write(expected(name), found).unwrap();
    }
    let stored = fs::read(expected(name)).unwrap_or_default();
    let text = |bytes: &[u8]| String::from_utf8_lossy(bytes).into_owned();
    assert!(stored == found, "{name}: stored\n{}\nfound\n{}", text(&stored), text(found));
}

#[test]
fn outputs_are_as_stored() {
    for (name, line) in CASES {
        for json in [false, true] {
            let mut args = arguments(line);
            args.extend(json.then(|| "--json".to_string()));
            let args: Vec<&str> = args.iter().map(String::as_str).collect();
            let output = run(&args);
            assert!(output.stderr.is_empty(), "{args:?}");
            assert!(is_plain(&output.stdout), "{args:?}");
            let mut found = format!("$ bsp29 {}\n", args.join(" ")).into_bytes();
            found.extend(&output.stdout);
            found.extend(format!("status {}\n", status(&output)).bytes());
            if json {
                let _: serde_json::Value = serde_json::from_slice(&output.stdout).unwrap();
            }
            compare(&format!("{name}.{}", if json { "json" } else { "txt" }), &found);
        }
    }
}

/// The pixels of a PNG, with its width.
fn pixels(bytes: &[u8]) -> (u32, Vec<u8>) {
    let mut reader = png::Decoder::new(bytes).read_info().unwrap();
    let mut pixels = vec![0; reader.output_buffer_size()];
    let info = reader.next_frame(&mut pixels).unwrap();
    (info.width, pixels)
}

/// Compares pixels, since the bytes depend on how they are packed.
fn compare_pixels(name: &str, found: &[u8]) {
    if env::var_os("BSP29_TOOL_STORE").is_some() {
        return fs::write(expected(name), found).unwrap();
    }
    let stored = fs::read(expected(name)).unwrap();
    assert!(pixels(&stored) == pixels(found), "{name} differs");
}

#[test]
fn pictures_are_as_stored() {
    let made = folder("pictures");
    for (name, line) in [
        ("court.svg", "maps/court.bsp --size 200"),
        ("lock.svg", "maps/lock.bsp --leaves --size 300"),
        ("slice.svg", "maps/rooms.bsp --height -40 --size 200"),
        ("leaves.svg", "maps/rooms.bsp --leaves --size 200"),
        ("see.svg", "maps/rooms.bsp --see 2 --size 200"),
        ("loop.svg", "@/loop.bsp --hull 1 --size 200"),
        ("trace.svg", "maps/rooms.bsp --trace -100,-90,0 100,110,0 --size 200"),
        ("trace.png", "maps/rooms.bsp --hull 1 --trace -100,-90,0 100,110,0 --size 400"),
    ] {
        let written = format!("{made}/{name}");
        let mut args = arguments(&format!("picture {line}"));
        args.extend(["-o".to_string(), written.clone()]);
        let output = run(&args.iter().map(String::as_str).collect::<Vec<_>>());
        assert_eq!(status(&output), 0, "{name}: {}", String::from_utf8_lossy(&output.stderr));
        let bytes = fs::read(root().join(&written)).unwrap();
        match name.ends_with(".png") {
            true => compare_pixels(name, &bytes),
            false => compare(name, &bytes),
        }
    }
}

#[test]
fn check_draws_the_maps_that_fail() {
    let made = folder("check");
    let output =
        run(&["check", "maps/rooms.bsp", "rust/bsp29-tool/tests/maps", "--pictures", &made]);
    assert_eq!(status(&output), 1);
    let mut names: Vec<String> = fs::read_dir(root().join(&made))
        .unwrap()
        .map(|entry| entry.unwrap().file_name().into_string().unwrap())
        .collect();
    names.sort();
    let drawn = ["0002-contents", "0003-cut", "0004-edge", "0006-loop", "0007-row", "0008-shared"];
    let mut due: Vec<String> = drawn.iter().map(|name| format!("{name}.png")).collect();
    due.push("index.html".to_string());
    assert_eq!(names, due);
    let page = fs::read_to_string(root().join(&made).join("index.html")).unwrap();
    assert!(names[..6].iter().all(|name| page.contains(&format!("src=\"{name}\""))));
    compare_pixels("check-loop.png", &fs::read(root().join(&made).join(&names[3])).unwrap());
    compare_pixels("check-contents.png", &fs::read(root().join(&made).join(&names[0])).unwrap());
}

#[test]
fn wrong_arguments_are_2_and_show_the_usage() {
    for line in [
        "",
        "no-such-command",
        "info",
        "info a b",
        "check",
        "check maps --seconds 0",
        "check maps --jobs 0",
        "records maps/rooms.bsp nothing",
        "records maps/rooms.bsp planes x",
        "at maps/rooms.bsp 1 2",
        "at maps/rooms.bsp 1 2 x",
        "trace maps/rooms.bsp 1,2 3,4,5",
        "trace maps/rooms.bsp 1,2,3 4,5,6 --hull 3",
        "picture maps/rooms.bsp",
        "picture maps/rooms.bsp -o a.gif",
        "picture maps/rooms.bsp -o a.png --size 1",
        "made-up 1 -o a.bsp",
        "diff maps/rooms.bsp",
        "--no-such-flag",
    ] {
        let args: Vec<&str> = line.split(' ').filter(|word| !word.is_empty()).collect();
        let output = run(&args);
        assert_eq!(status(&output), 2, "{line}");
        assert!(output.stdout.is_empty() && !output.stderr.is_empty(), "{line}");
    }
}

#[test]
fn help_and_version_are_0() {
    let commands = [
        "info", "check", "why", "entities", "records", "at", "trace", "tree", "vis", "textures",
        "made-up", "diff", "picture",
    ];
    for command in commands {
        let output = run(&[command, "--help"]);
        assert_eq!(status(&output), 0, "{command}");
        let text = String::from_utf8(output.stdout).unwrap();
        assert!(text.contains("Usage: bsp29") && text.contains("--json"), "{command}");
    }
    assert_eq!(status(&run(&["--help"])), 0);
    assert_eq!(status(&run(&["--version"])), 0);
}

#[test]
fn what_cannot_be_read_is_1() {
    for line in [
        "info no-such-file",
        "why maps",
        "entities @/contents.bsp",
        "records maps/rooms.bsp planes 38",
        "at maps/rooms.bsp 0 0 0 --model 2",
        "trace @/loop.bsp 0,0,0 1,1,1 --hull 1",
        "trace @/shared.bsp 0,0,0 1,1,1 --hull 1",
        "picture @/shared.bsp --hull 1 --trace 0,0,0 1,1,1 -o rust/bsp29-tool/target/none.png",
        "trace maps/rooms.bsp 0,0,0 1,1,1 --model 9",
        "vis maps/rooms.bsp --leaf 6",
        "check no-such-file",
        "check /dev/zero",
        "info /dev/null",
        "check docs",
        "picture maps/rooms.bsp --see 6 -o rust/bsp29-tool/target/none.png",
        "picture maps/rooms.bsp -o no-such-folder/none.png",
        "picture @/contents.bsp -o rust/bsp29-tool/target/none.png",
    ] {
        for json in [false, true] {
            let mut args = arguments(line);
            args.extend(json.then(|| "--json".to_string()));
            let output = run(&args.iter().map(String::as_str).collect::<Vec<_>>());
            assert_eq!(status(&output), 1, "{line}");
            assert!(!output.stdout.is_empty() || !json, "{line}");
            assert!(is_plain(&output.stdout) && is_plain(&output.stderr), "{line}");
        }
    }
    assert!(!root().join("rust/bsp29-tool/target/none.png").exists());
}

#[test]
fn a_picture_never_takes_a_maps_place() {
    let made = folder("place");
    let map = format!("{made}/map.png");
    fs::copy(root().join("maps/rooms.bsp"), root().join(&map)).unwrap();
    assert_eq!(status(&run(&["picture", &map, "-o", &map])), 2);
    assert_eq!(
        fs::read(root().join(&map)).unwrap(),
        fs::read(root().join("maps/rooms.bsp")).unwrap()
    );
}

#[test]
fn made_up_maps_are_written_and_pass() {
    let made = folder("made-up");
    let map = format!("{made}/map.bsp");
    assert_eq!(status(&run(&["made-up", "7", "100", "-o", &map])), 0);
    assert_eq!(fs::read(root().join(&map)).unwrap(), bsp29::made_up(7, 100).unwrap());
    assert_eq!(status(&run(&["check", &map])), 0);
    let refused = run(&["made-up", "7", "501", "-o", &map, "--json"]);
    assert_eq!(status(&refused), 1);
    let said: serde_json::Value = serde_json::from_slice(&refused.stdout).unwrap();
    assert_eq!(said["error"]["number"], 29);
    assert_eq!(fs::metadata(root().join(&map)).unwrap().len(), 249 + 52 * 100);
}

#[test]
fn a_map_that_takes_too_long_has_its_own_verdict() {
    let made = folder("time");
    let slow = format!("{made}/slow.bsp");
    fs::write(root().join(&slow), common::slow::map()).unwrap();
    let output =
        run(&["check", &slow, "maps/rooms.bsp", "--seconds", "1", "--jobs", "1", "--json"]);
    assert_eq!(status(&output), 1);
    let said: serde_json::Value = serde_json::from_slice(&output.stdout).unwrap();
    assert_eq!(said["maps"][0]["verdict"], "time");
    assert_eq!(said["maps"][1]["verdict"], "passes");
    assert_eq!(said["summary"]["out_of_time"], 1);
}

/// A command of docs/TOOL.md and the lines that are printed below it there.
fn documented() -> Vec<(String, Vec<String>)> {
    let page = fs::read_to_string(root().join("docs/TOOL.md")).unwrap();
    let mut cases: Vec<(String, Vec<String>)> = Vec::new();
    let mut within = false;
    for line in page.lines() {
        match (line.strip_prefix("    $ bsp29 "), line.strip_prefix("    ")) {
            (Some(command), _) => cases.push((command.to_string(), Vec::new())),
            (None, Some(shown)) if within => cases.last_mut().unwrap().1.push(shown.to_string()),
            (None, None) if within && line.is_empty() => {
                cases.last_mut().unwrap().1.push(String::new());
            }
            _ => {
                within = false;
                continue;
            }
        }
        within = true;
    }
    cases
}

/// Whether lines are those of an output; two dots stand for lines that are left out.
fn are_printed(lines: &[String], output: &str) -> bool {
    let lines: Vec<&str> = lines.iter().map(String::as_str).collect();
    let text = lines.join("\n");
    let mut left = output;
    for (n, part) in text.trim_end().split("..\n").enumerate() {
        match left.find(part.trim_end()) {
            Some(at) if n > 0 || at == 0 => left = &left[at + part.trim_end().len()..],
            _ => return false,
        }
    }
    text.contains("..\n") || left.trim_end().is_empty()
}

#[test]
fn the_cases_of_the_docs_are_what_is_printed() {
    let cases = documented();
    assert!(cases.len() >= 7);
    for (command, lines) in cases.iter().filter(|(command, _)| !command.starts_with("picture")) {
        let output = run(&command.split(' ').collect::<Vec<_>>());
        let output = String::from_utf8(output.stdout).unwrap();
        assert!(are_printed(lines, &output), "{command}\n{}\nprinted\n{output}", lines.join("\n"));
    }
}
