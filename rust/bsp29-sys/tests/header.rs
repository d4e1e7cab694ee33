//! `include/bsp29.h` and this crate declare the same calls, lengths and version.

fn read(path: &str) -> String {
    let path = format!("{}/{path}", env!("CARGO_MANIFEST_DIR"));
    std::fs::read_to_string(&path).unwrap_or_else(|error| panic!("{path}: {error}"))
}

/// A call: its name, and name and type of each parameter, the types as Rust writes them.
type Call = (String, Vec<(String, String)>);

/// A parameter of C, as Rust has it.
fn of_c(parameter: &str) -> (String, String) {
    let (kind, name) = parameter.trim().rsplit_once([' ', '*']).unwrap();
    let pointer = parameter.contains('*');
    let plain = kind.trim_start_matches("const ").trim_end_matches('*').trim();
    let plain = match plain {
        "uint8_t" => "u8",
        "uint32_t" => "u32",
        "uint64_t" => "u64",
        "int32_t" => "i32",
        "float" => "f32",
        "size_t" => "usize",
        other => panic!("{other} in {parameter}"),
    };
    let kind = match (pointer, kind.starts_with("const ")) {
        (true, true) => format!("*const {plain}"),
        (true, false) => format!("*mut {plain}"),
        (false, _) => plain.to_string(),
    };
    (name.to_string(), kind)
}

/// The calls of the header, in order.
fn of_header() -> Vec<Call> {
    let header = read("../../include/bsp29.h");
    let mut calls = Vec::new();
    let mut rest = header.as_str();
    while let Some(at) = rest.find("\nuint32_t bsp_") {
        let end = at + rest[at..].find(");").unwrap();
        let (name, parameters) = rest[at + "\nuint32_t ".len()..end].split_once('(').unwrap();
        let parameters = match parameters {
            "void" => Vec::new(),
            some => some.split(',').map(of_c).collect(),
        };
        calls.push((name.to_string(), parameters));
        rest = &rest[end..];
    }
    calls
}

/// The calls of `src/lib.rs`, in order, with the names of its types resolved.
fn of_crate() -> Vec<Call> {
    let source = read("src/lib.rs");
    let types: Vec<(&str, &str)> = source
        .lines()
        .filter_map(|line| line.strip_prefix("type ")?.strip_suffix(';')?.split_once(" = "))
        .collect();
    let kind = |kind: &str| {
        let found = types.iter().find(|(name, _)| *name == kind);
        found.map_or(kind, |(_, meant)| meant).to_string()
    };
    let calls = source.lines().filter_map(|line| line.strip_prefix("    pub fn "));
    calls
        .map(|call| {
            let (name, rest) = call.split_once('(').unwrap();
            let parameters = rest.strip_suffix(") -> u32;").unwrap();
            let parameters = parameters.split(", ").filter(|one| !one.is_empty());
            let parameters = parameters.map(|one| one.split_once(": ").unwrap());
            (name.to_string(), parameters.map(|(n, k)| (n.to_string(), kind(k))).collect())
        })
        .collect()
}

#[test]
fn the_same_calls() {
    let (header, own) = (of_header(), of_crate());
    assert!(header.len() >= 28);
    for (left, right) in header.iter().zip(&own) {
        assert_eq!(left, right);
    }
    assert_eq!(header.len(), own.len());
}

/// The number that follows a name of the header.
fn number(header: &str, name: &str) -> usize {
    let at = header.find(&format!("{name} ")).unwrap_or_else(|| panic!("{name}"));
    let digits = header[at + name.len()..].trim_start_matches([' ', '=']);
    digits.split(|c: char| !c.is_ascii_digit()).next().unwrap().parse().unwrap()
}

#[test]
fn the_same_lengths() {
    let header = read("../../include/bsp29.h");
    let lengths = [
        ("BSP_MAP_WORDS", bsp29_sys::MAP_WORDS),
        ("BSP_RECORD_WORDS", bsp29_sys::RECORD_WORDS),
        ("BSP_HULL_WORDS", bsp29_sys::HULL_WORDS),
        ("BSP_SIZES_WORDS", bsp29_sys::SIZES_WORDS),
        ("BSP_TRACE_WORDS", bsp29_sys::TRACE_WORDS),
        ("BSP_LINE_WORDS", bsp29_sys::LINE_WORDS),
        ("BSP_TEXTURE_WORDS", bsp29_sys::TEXTURE_WORDS),
    ];
    for (name, length) in lengths {
        assert_eq!(number(&header, name), length, "{name}");
    }
}

#[test]
fn the_same_version() {
    let header = read("../../include/bsp29.h");
    let parts = ["MAJOR", "MINOR", "PATCH"]
        .map(|part| number(&header, &format!("#define BSP29_VERSION_{part}")));
    assert_eq!(parts.map(|part| part.to_string()).join("."), bsp29_sys::VERSION);
}
