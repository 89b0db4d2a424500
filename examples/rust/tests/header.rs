//! `sys` declares each call, each struct and each limit of the installed header, and nothing else.

use std::collections::BTreeSet;

const SYS: &str = include_str!("../src/sys.rs");

/// Returns a text without comments, preprocessor lines and needless blanks.
fn plain(text: &str) -> String {
    let mut kept = String::new();
    let mut rest = text;
    while let Some(start) = rest.find("/*") {
        kept.push_str(&rest[..start]);
        rest = rest[start..].split_once("*/").map_or("", |(_, behind)| behind);
    }
    kept.push_str(rest);
    let lines = kept.lines().filter(|line| !line.starts_with(['#', '/']) && !line.trim_start().starts_with("//"));
    lines.flat_map(str::split_whitespace).collect::<Vec<_>>().join(" ")
}

/// Returns the Rust type of a C type, without its stars.
fn type_of(name: &str) -> &str {
    match name {
        "int" => "c_int",
        "char" => "c_char",
        "size_t" => "usize",
        "int32_t" => "i32",
        "uint32_t" => "u32",
        "uint64_t" => "u64",
        own => own,
    }
}

/// Returns a parameter or a field, `TYPE NAME`, `TYPE *NAME` or `TYPE NAME[ROOM]`, as Rust has it.
fn declared(text: &str) -> String {
    let (place, text) = match text.strip_prefix("const ") {
        Some(rest) => ("*const ", rest),
        None => ("*mut ", text),
    };
    let (kind, name) = text.trim().split_once(' ').expect(text);
    match (name.strip_prefix('*'), name.split_once('[')) {
        (Some(name), _) => format!("{name}: {place}{}", type_of(kind)),
        (_, Some((name, room))) => format!("{name}: [{}; {room}", type_of(kind)),
        _ => format!("{name}: {}", type_of(kind)),
    }
}

/// Returns the calls of the header, as Rust declares them.
fn calls_of(header: &str) -> BTreeSet<String> {
    let mut found = BTreeSet::new();
    for statement in header.split(';') {
        let Some((head, parameters)) = statement.trim().strip_suffix(')').and_then(|it| it.split_once('(')) else {
            continue;
        };
        let (kind, name) = head.trim().rsplit_once(' ').expect(head);
        let given: Vec<_> = parameters.split(',').filter(|it| *it != "void").map(|it| declared(it.trim())).collect();
        let result = match (kind.rsplit(' ').next(), name.starts_with('*')) {
            (Some("void"), _) => String::new(),
            (_, true) => " -> *const c_char".into(),
            (Some(kind), _) => format!(" -> {}", type_of(kind)),
            (None, _) => unreachable!("{head}"),
        };
        found.insert(format!("pub fn {}({}){result}", name.trim_start_matches('*'), given.join(", ")));
    }
    found
}

/// Returns the structs of the header, as Rust declares them.
fn structs_of(header: &str) -> BTreeSet<String> {
    let mut found = BTreeSet::new();
    for text in header.split("typedef struct ").skip(1) {
        let (name, rest) = text.split_once(" { ").expect(text);
        let (fields, _) = rest.split_once(" }").expect(rest);
        // A handle is a pointer to what only the library knows.
        let fields = fields.replace("void *at", "c_void *at");
        let fields: Vec<_> = fields
            .split(';')
            .filter(|it| !it.trim().is_empty())
            .map(|it| format!("pub {}", declared(it.trim())))
            .collect();
        found.insert(format!("pub struct {name} {{ {}, }}", fields.join(", ")));
    }
    found
}

/// Returns the limits of the header, as Rust declares them.
fn limits_of(header: &str) -> BTreeSet<String> {
    let (_, behind) = header.split_once("BIM_NAME_ROOM").expect("the header has no limits");
    let (limits, _) = behind.split_once(" }").expect("the limits don't end");
    format!("BIM_NAME_ROOM{limits}")
        .split(", ")
        .map(|it| format!("pub const {}", it.replacen(" = ", ": usize = ", 1)))
        .collect()
}

/// Returns the declarations of `sys` that begin so, up to an end.
fn in_sys(begin: &str, end: &str) -> BTreeSet<String> {
    let text = plain(SYS);
    let places: Vec<_> = text.match_indices(begin).map(|(at, _)| at).collect();
    let taken = |at: usize| {
        text[at..].split_once(end).map(|(declaration, _)| format!("{declaration}{}", end.trim_end_matches(';')))
    };
    places.into_iter().map(|at| taken(at).expect(begin).replace("( ", "(").replace(", )", ")")).collect()
}

fn header() -> String {
    let text = std::fs::read_to_string(env!("BIMPHLAI_HEADER")).expect(env!("BIMPHLAI_HEADER"));
    plain(&text).replace("extern \"C\" {", "")
}

#[test]
fn every_call_is_declared() {
    let calls = calls_of(&header());
    assert!(calls.len() > 60, "{calls:?}");
    assert_eq!(in_sys("pub fn ", ";"), calls);
}

#[test]
fn every_struct_is_declared() {
    assert_eq!(in_sys("pub struct ", " }"), structs_of(&header()));
}

#[test]
fn every_limit_is_declared() {
    let own = "pub const BIM_USAGES: usize = 4";
    let declared: BTreeSet<_> = in_sys("pub const ", ";").into_iter().filter(|it| it != own).collect();
    assert_eq!(declared, limits_of(&header()));
}
