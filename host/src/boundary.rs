//! Holds together the three places that state the C functions: the source `crates/export/src/lib.rt`, the declarations `sys.rs` and the
//! header `groatlantern.h`; and has a C compiler measure the header's structs.

use crate::sys;
use std::collections::BTreeMap;
use std::fs;
use std::mem::{offset_of, size_of};
use std::path::{Path, PathBuf};
use std::process::Command;

/// Functions: name to the C types of parameters and result. Structs: name to (field, C type).
type Functions = BTreeMap<String, Vec<String>>;
type Structs = BTreeMap<String, Vec<(String, String)>>;

fn here(path: &str) -> PathBuf {
    Path::new(env!("CARGO_MANIFEST_DIR")).join(path)
}

/// A file without its comments, its white space folded.
fn text(path: &str) -> String {
    let text = fs::read_to_string(here(path)).unwrap();
    let lines: Vec<&str> = text.lines().map(|l| l.split("//").next().unwrap()).collect();
    let mut text = lines.join(" ");
    while let Some(start) = text.find("/*") {
        let end = start + text[start..].find("*/").unwrap() + 2;
        text.replace_range(start..end, " ");
    }
    text.split_whitespace().collect::<Vec<_>>().join(" ")
}

/// What stands between each `open` and the next `close`.
fn between<'a>(text: &'a str, open: &str, close: &str) -> Vec<&'a str> {
    text.split(open).skip(1).map(|part| part.split(close).next().unwrap().trim()).collect()
}

/// A number's type as C spells it; a struct's as it is.
fn c_type(rust: &str) -> String {
    match rust.trim() {
        "u8" => "uint8_t".into(),
        "u32" => "uint32_t".into(),
        "u64" => "uint64_t".into(),
        "usize" => "size_t".into(),
        other => other.into(),
    }
}

fn list(parameters: &str) -> Vec<&str> {
    parameters.split(',').map(str::trim).filter(|p| !p.is_empty()).collect()
}

/// `name: type` parameters and the result as C types: a slice is a pointer and a length.
fn signature(parameters: &str, result: &str) -> Vec<String> {
    let mut types = vec![];
    for parameter in list(parameters) {
        let kind = parameter.split_once(':').unwrap().1.trim();
        if let Some(of) = kind.strip_prefix("&mut [") {
            types.extend([format!("{} *", c_type(of.trim_end_matches(']'))), "size_t".into()]);
        } else if let Some(of) = kind.strip_prefix("&[") {
            types.extend([format!("const {} *", c_type(of.trim_end_matches(']'))), "size_t".into()]);
        } else if let Some(of) = kind.strip_prefix("*mut ") {
            types.push(format!("{} *", c_type(of)));
        } else if let Some(of) = kind.strip_prefix("*const ") {
            types.push(format!("const {} *", c_type(of)));
        } else {
            types.push(c_type(kind));
        }
    }
    types.push(c_type(result));
    types
}

/// The functions of Rattle or Rust text: each starts with `mark`, and its result ends before one of `ends`.
fn rust_functions(text: &str, mark: &str, ends: &[&str]) -> Functions {
    let mut found = Functions::new();
    for part in text.split(mark).skip(1) {
        let (name, rest) = part.split_once('(').unwrap();
        let (parameters, rest) = rest.split_once(')').unwrap();
        let end = ends.iter().filter_map(|e| rest.find(e)).min().unwrap();
        let result = rest[..end].trim().trim_start_matches("->");
        found.insert(name.trim().into(), signature(parameters, result));
    }
    found
}

fn rust_structs(text: &str) -> Structs {
    let mut found = Structs::new();
    for part in text.split("#[repr(C)]").skip(1) {
        let part = part.split_once("pub struct ").unwrap().1;
        let (name, rest) = part.split_once('{').unwrap();
        let fields = list(rest.split('}').next().unwrap());
        let field = |f: &&str| {
            let (name, kind) = f.trim_start_matches("pub ").split_once(':').unwrap();
            (name.trim().to_string(), c_type(kind))
        };
        found.insert(name.trim().into(), fields.iter().map(field).collect());
    }
    found
}

/// A C declaration as (type, name): `const uint8_t *slice`.
fn c_declaration(text: &str) -> (String, String) {
    let at = text.rfind([' ', '*']).unwrap() + 1;
    (text[..at].trim().to_string(), text[at..].to_string())
}

fn header_functions(text: &str) -> Functions {
    let mut found = Functions::new();
    for statement in text.split(';') {
        let Some(at) = statement.find("groat_") else { continue };
        let (name, parameters) = statement[at..].split_once('(').unwrap();
        let before = &statement[..at];
        let result = before.rsplit(['}', '{', '"']).next().unwrap().trim();
        let result = result.rsplit(' ').next().unwrap();
        let mut types: Vec<String> =
            list(parameters.trim_end_matches(')')).iter().map(|p| c_declaration(p).0).collect();
        types.push(result.into());
        found.insert(name.trim().into(), types);
    }
    found
}

fn header_structs(text: &str) -> Structs {
    let mut found = Structs::new();
    for part in between(text, "typedef struct ", "} ") {
        let (name, fields) = part.split_once('{').unwrap();
        let field = |f: &str| {
            let (kind, name) = c_declaration(f.trim());
            (name, kind)
        };
        let fields = fields.split(';').filter(|f| !f.trim().is_empty()).map(field).collect();
        found.insert(name.trim().into(), fields);
    }
    found
}

#[test]
fn source_declarations_and_header_agree() {
    let (source, sys, header) = (text("../crates/export/src/lib.rt"), text("src/sys.rs"), text("groatlantern.h"));
    let functions = rust_functions(&source, "pub extern \"C\" fn ", &["ensures", "{"]);
    assert!(functions.len() >= 7, "{functions:?}");
    assert_eq!(functions, rust_functions(&sys, "pub fn ", &[";"]));
    assert_eq!(functions, header_functions(&header));
    let structs = rust_structs(&source);
    assert!(structs.len() >= 4, "{structs:?}");
    assert_eq!(structs, rust_structs(&sys));
    assert_eq!(structs, header_structs(&header));
}

/// Runs the C compiler on a file with the header beside it, and what it made.
fn run_c(file: &Path, name: &str, more: &[PathBuf]) -> String {
    let folder = PathBuf::from(env!("GROAT_OUT")).join("c");
    fs::create_dir_all(&folder).unwrap();
    let program = folder.join(name);
    let compiler = std::env::var("CC").unwrap_or_else(|_| "cc".into());
    let made = Command::new(compiler)
        .args(["-std=c99", "-Wall", "-Wextra", "-Werror", "-O1", "-I"])
        .arg(here("."))
        .arg("-o")
        .arg(&program)
        .arg(file)
        .args(more)
        .status()
        .expect("a C compiler runs");
    assert!(made.success(), "the header does not compile");
    let run = Command::new(&program).output().unwrap();
    let said = String::from_utf8(run.stdout).unwrap();
    assert!(run.status.success(), "{said}");
    said
}

#[test]
fn c_lays_the_structs_out_as_rust_does() {
    let mut rust: BTreeMap<String, Vec<usize>> = BTreeMap::new();
    macro_rules! laid_out {
        ($($name:ident { $($field:ident),* })*) => {
            $(rust.insert(stringify!($name).into(), vec![size_of::<sys::$name>() $(, offset_of!(sys::$name, $field))*]);)*
        };
    }
    laid_out! {
        GroatAnswer { status, value }
        GroatPlace { status, next }
        GroatCommon { lcp, ord }
        GroatNode { base, check, leaf, marked, vacant }
    }
    let structs = header_structs(&text("groatlantern.h"));
    let mut program = String::from("#include <stdio.h>\n#include \"groatlantern.h\"\nint main(void) {\n");
    for (name, fields) in &structs {
        program += &format!("    printf(\"{name} %zu\", sizeof({name}));\n");
        for (field, _) in fields {
            program += &format!("    printf(\" %zu\", offsetof({name}, {field}));\n");
        }
        program += "    printf(\"\\n\");\n";
    }
    program += "    return 0;\n}\n";
    let file = PathBuf::from(env!("GROAT_OUT")).join("sizes.c");
    fs::write(&file, program).unwrap();
    let mut c: BTreeMap<String, Vec<usize>> = BTreeMap::new();
    for line in run_c(&file, "sizes", &[]).lines() {
        let mut words = line.split(' ');
        c.insert(words.next().unwrap().into(), words.map(|w| w.parse().unwrap()).collect());
    }
    assert_eq!(c, rust);
}

#[test]
fn c_calls_every_function() {
    let library = PathBuf::from(env!("GROAT_LIBRARY"));
    run_c(&here("tests/c/smoke.c"), "smoke", &[library]);
    let smoke = text("tests/c/smoke.c");
    for name in header_functions(&text("groatlantern.h")).keys() {
        assert!(smoke.contains(&format!("{name}(")), "tests/c/smoke.c does not call {name}");
    }
}
