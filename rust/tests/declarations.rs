//! The functions that src/c.rs declares are those of include/crumbvessel.h, with the same types.

use std::collections::BTreeMap;

const HEADER: &str = include_str!("../../include/crumbvessel.h");
const DECLARED: &str = include_str!("../src/c.rs");

/// Names and types of functions: the answer's last.
type Functions = BTreeMap<String, Vec<String>>;

/// C's text without comments and the preprocessor's lines.
fn plain(text: &str) -> String {
    let parts = text.split("/*").map(|part| part.split_once("*/").map_or(part, |(_, behind)| behind));
    parts.collect::<String>().lines().filter(|line| !line.starts_with('#')).collect::<Vec<_>>().join(" ")
}

/// The type of a C parameter in Rust's words.
fn in_rust(c: &str) -> String {
    let lent = match (c.contains('*'), c.contains("const ")) {
        (true, true) => "*const ",
        (true, false) => "*mut ",
        _ => "",
    };
    let types = [("uint8_t", "u8"), ("uint16_t", "u16"), ("uint32_t", "u32"), ("uint64_t", "u64"), ("size_t", "usize")];
    let plain = types.iter().find(|(name, _)| c.contains(name)).map_or("bool", |(_, rust)| rust);
    format!("{lent}{plain}")
}

fn of_header() -> Functions {
    let text = plain(HEADER);
    let statements = text.split(';').filter_map(|s| s.split_once('(').filter(|(front, _)| !front.contains("inline")));
    let mut functions = Functions::new();
    for (front, behind) in statements {
        let front = front.split_whitespace().collect::<Vec<_>>();
        if let [.., answer, name] = front[..] {
            let types = behind.trim_end_matches(')').split(',').map(in_rust);
            functions.insert(name.to_string(), types.chain([in_rust(answer)]).collect());
        }
    }
    functions
}

fn of_rust() -> Functions {
    let mut functions = Functions::new();
    for declared in DECLARED.split("pub fn ").filter(|d| d.starts_with("cv_")) {
        let (name, behind) = declared.split_once('(').unwrap();
        let (parameters, answer) = behind.split_once(')').unwrap();
        let answer = answer.split(';').next().unwrap().trim().trim_start_matches("-> ");
        let types = parameters.split(',').filter_map(|p| p.split_once(':')).map(|(_, t)| t.trim().to_string());
        functions.insert(name.to_string(), types.chain([answer.to_string()]).collect());
    }
    functions
}

#[test]
fn declarations_are_the_headers() {
    let (header, rust) = (of_header(), of_rust());
    assert!(rust.len() > 30, "{rust:?}");
    assert_eq!(rust, header);
}
