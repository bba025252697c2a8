//! src/sys.rs against include/shofrakin.h: the same records with the same fields, the same calls with the same arguments, and, where a C
//! compiler is at hand, the same sizes and places.
use shofrakin::sys::RECORDS;
use shofrakin::Refusal;
use std::collections::BTreeMap;
use std::process::Command;

const ROOT: &str = concat!(env!("CARGO_MANIFEST_DIR"), "/../..");

/// The header without comments and lines of the preprocessor, blanks made one.
fn header() -> String {
    let text = std::fs::read_to_string(format!("{ROOT}/include/shofrakin.h")).unwrap();
    let mut s = String::new();
    let mut rest = text.as_str();
    while let Some(i) = rest.find("/*") {
        s += &rest[..i];
        rest = &rest[i + rest[i..].find("*/").unwrap() + 2..];
    }
    s += rest;
    // what stands for C++ alone goes with its lines of the preprocessor
    let s = s.replace("extern \"C\" {", "").replace("#ifdef __cplusplus\n}\n#endif", "");
    s.lines().filter(|l| !l.trim_start().starts_with('#')).flat_map(str::split_whitespace).collect::<Vec<_>>().join(" ")
}

/// The records by name, each with its fields as C declares them, and the calls by name, each with what it returns and its arguments.
fn declared() -> (BTreeMap<String, Vec<String>>, BTreeMap<String, Vec<String>>) {
    let (mut records, mut calls) = (BTreeMap::new(), BTreeMap::new());
    let text = header();
    let mut rest = text.as_str();
    while !rest.trim().is_empty() {
        rest = rest.trim();
        if let Some(body) = rest.strip_prefix("typedef struct {") {
            let (fields, after) = body.split_once('}').unwrap();
            let (name, after) = after.split_once(';').unwrap();
            records.insert(name.trim().to_string(), fields.split(';').map(str::trim).filter(|f| !f.is_empty()).map(String::from).collect());
            rest = after;
        } else {
            let (call, after) = rest.split_once(';').unwrap();
            let (head, args) = call.split_once('(').unwrap();
            let (returns, name) = head.rsplit_once(' ').unwrap();
            let args = args.trim().strip_suffix(')').unwrap();
            let mut v = vec![returns.to_string()];
            v.extend(args.split(',').map(|a| a.trim().to_string()));
            calls.insert(name.to_string(), v);
            rest = after;
        }
    }
    (records, calls)
}

/// A Rust type as C has it, with the declared name after it.
fn in_c(t: &str, name: &str) -> String {
    if let Some(t) = t.strip_prefix("*const ") {
        return format!("const {}", in_c(t, &format!("*{name}")));
    }
    if let Some(t) = t.strip_prefix("*mut ") {
        return in_c(t, &format!("*{name}"));
    }
    let plain = match t {
        "usize" => "size_t",
        "u8" => "uint8_t",
        "u16" => "uint16_t",
        "u32" => "uint32_t",
        "u64" => "uint64_t",
        "i32" => "int32_t",
        "f32" => "float",
        "f64" => "double",
        "bool" => "bool",
        _ => RECORDS.iter().find(|r| r.rust == t).unwrap_or_else(|| panic!("no C type for {t}")).c,
    };
    format!("{plain} {name}").trim().to_string()
}

/// Fails with what differs alone, name by name.
fn same(have: &BTreeMap<String, Vec<String>>, want: &BTreeMap<String, Vec<String>>) {
    let mut wrong = String::new();
    for name in have.keys().chain(want.keys().filter(|n| !have.contains_key(*n))) {
        match (have.get(name), want.get(name)) {
            (Some(_), None) => wrong += &format!("\n{name}: not in the header"),
            (None, Some(_)) => wrong += &format!("\n{name}: not in src/sys.rs"),
            (Some(h), Some(w)) if h != w => {
                let i = h.iter().zip(w).take_while(|(x, y)| x == y).count();
                wrong += &format!("\n{name}, {i}: {:?} in src/sys.rs, {:?} in the header", h.get(i), w.get(i));
            }
            _ => (),
        }
    }
    assert!(wrong.is_empty(), "{wrong}");
}

#[test]
fn records_have_the_headers_fields() {
    let want = declared().0;
    let mut have = BTreeMap::new();
    for r in RECORDS {
        have.insert(r.c.to_string(), r.fields.iter().map(|(f, t, _)| in_c(t, f)).collect::<Vec<_>>());
    }
    same(&have, &want);
}

#[test]
fn calls_have_the_headers_arguments() {
    let want = declared().1;
    let text = include_str!("../src/sys.rs");
    let (_, block) = text.split_once("extern \"C\" {").unwrap();
    let (block, _) = block.split_once("\n}").unwrap();
    let mut have = BTreeMap::new();
    for call in block.split(';').map(str::trim).filter(|c| !c.is_empty()) {
        let call = call.split_whitespace().collect::<Vec<_>>().join(" ");
        let (name, rest) = call.strip_prefix("pub fn ").unwrap_or_else(|| panic!("{call}")).split_once('(').unwrap();
        let (args, returns) = rest.rsplit_once(") -> ").unwrap();
        let mut v = vec![in_c(returns, "")];
        v.extend(args.split(',').map(str::trim).filter(|a| !a.is_empty()).map(|a| {
            let (n, t) = a.split_once(": ").unwrap();
            in_c(t, n)
        }));
        have.insert(name.to_string(), v);
    }
    same(&have, &want);
}

#[test]
fn records_lie_as_in_c() {
    let cc = std::env::var("CC").unwrap_or_else(|_| "cc".into());
    let dir = std::path::Path::new(env!("CARGO_TARGET_TMPDIR"));
    let (source, program) = (dir.join("layout.c"), dir.join("layout"));
    let mut c = String::from("#include \"shofrakin.h\"\n#include <stdio.h>\nint main(void) {\n");
    let mut want = String::new();
    for r in RECORDS {
        c += &format!("    printf(\"{0} %zu\\n\", sizeof({0}));\n", r.c);
        want += &format!("{} {}\n", r.c, r.size);
        for (f, _, at) in r.fields {
            c += &format!("    printf(\"{0}.{f} %zu\\n\", offsetof({0}, {f}));\n", r.c);
            want += &format!("{}.{f} {at}\n", r.c);
        }
    }
    std::fs::write(&source, c + "    return 0;\n}\n").unwrap();
    let built = Command::new(&cc).args(["-std=c99", "-I"]).arg(format!("{ROOT}/include")).arg(&source).arg("-o").arg(&program).status();
    match built {
        Err(e) if e.kind() == std::io::ErrorKind::NotFound => eprintln!("no C compiler ({cc}): sizes and places are not compared"),
        built => {
            assert!(built.unwrap().success());
            let out = Command::new(&program).output().unwrap();
            let out = String::from_utf8(out.stdout).unwrap();
            for (have, want) in want.lines().zip(out.lines()) {
                assert_eq!(have, want, "src/sys.rs, and C");
            }
            assert_eq!(out.lines().count(), want.lines().count());
        }
    }
}

#[test]
fn sentences_are_the_c_helpers() {
    let text = std::fs::read_to_string(format!("{ROOT}/include/shofrakin_live.h")).unwrap();
    let mut have = BTreeMap::new();
    for line in text.lines().map(str::trim).filter_map(|l| l.strip_prefix("case ")) {
        let (number, rest) = line.split_once(": return \"").unwrap();
        have.insert(number.parse::<usize>().unwrap(), rest.strip_suffix("\";").unwrap());
    }
    assert_eq!(have.remove(&0), Some("taken"));
    let want: BTreeMap<_, _> = (0..100).filter_map(|n| Some((n, Refusal::sentence_of(n)?))).collect();
    assert_eq!(have, want);
    // every number that a call or a program refuses with
    assert!(want.keys().copied().eq(1..=33), "{:?}", want.keys());
}
