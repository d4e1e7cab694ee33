//! `include/bsp29.h` and this crate say the same of each refusal, of the contents and of the version.

use bsp29::{Contents, Refusal};

fn header() -> String {
    let path = concat!(env!("CARGO_MANIFEST_DIR"), "/../../include/bsp29.h");
    std::fs::read_to_string(path).unwrap()
}

/// The number of each constant of an enum.
fn constants(header: &str, name: &str) -> Vec<(String, u32)> {
    let start = header.find(&format!("enum {name} {{")).expect("the enum is there");
    let body = &header[start..start + header[start..].find("};").unwrap()];
    let lines = body.lines().skip(1).filter_map(|line| line.trim().split_once(" = "));
    lines
        .map(|(name, rest)| {
            let number = rest.split([',', ' ']).next().unwrap();
            (name.to_string(), number.parse().unwrap())
        })
        .collect()
}

#[test]
fn numbers_and_sentences() {
    let header = header();
    let refusals = constants(&header, "bsp_refusal");
    assert_eq!(refusals.len(), 33);
    for (name, number) in refusals {
        let start = header.find(&format!("case {name}: return \"")).expect(&name);
        let sentence = header[start..].split('"').nth(1).unwrap();
        if number == 0 {
            continue;
        }
        let refusal = Refusal::from_number(number);
        assert_eq!(refusal.number(), number);
        assert_eq!(refusal.to_string(), sentence);
        // END_OF_FILE and EndOfFile
        let plain = name.strip_prefix("BSP_").unwrap().replace('_', "").to_lowercase();
        assert_eq!(format!("{refusal:?}").to_lowercase(), plain);
    }
}

#[test]
fn every_other_number_is_unknown() {
    let known: Vec<u32> = constants(&header(), "bsp_refusal").into_iter().map(|c| c.1).collect();
    for number in 1..1000 {
        let unknown = Refusal::from_number(number) == Refusal::Unknown(number);
        assert_eq!(unknown, !known.contains(&number));
        assert_eq!(Refusal::from_number(number).number(), number);
    }
}

#[test]
fn contents() {
    let codes = constants(&header(), "bsp_contents_code");
    assert_eq!(codes.len(), (0..1000).filter_map(Contents::from_code).count());
    for (name, code) in codes {
        let contents = Contents::from_code(code).expect(&name);
        assert_eq!((contents.code(), contents as u32), (code, code));
        let plain = name.strip_prefix("BSP_").unwrap().replace('_', "").to_lowercase();
        assert_eq!(format!("{contents:?}").to_lowercase(), plain);
    }
}

#[test]
fn version() {
    let header = header();
    let part = |name: &str| {
        let name = format!("#define BSP29_VERSION_{name} ");
        header.lines().find_map(|line| line.strip_prefix(name.as_str())).unwrap()
    };
    assert_eq!([part("MAJOR"), part("MINOR"), part("PATCH")].join("."), bsp29::VERSION);
}
