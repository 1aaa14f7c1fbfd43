//! Every exported function is declared in `sys` and in tanqesha.h as its module has it, called there by the tests, and
//! reached by the safe layer.

use std::fs;
use std::path::Path;

/// A function: its parameters as Rust writes them, and its answer.
#[derive(Debug, PartialEq)]
struct Function {
    symbol: String,
    parameters: Vec<(String, String)>,
    answer: String,
}

fn read(path: &str) -> String {
    let path = Path::new(env!("CARGO_MANIFEST_DIR")).join(path);
    fs::read_to_string(&path).unwrap_or_else(|e| panic!("{}: {e}", path.display()))
}

/// Every file of a folder, one after the other.
fn folder(path: &str) -> String {
    let mut text = String::new();
    for entry in fs::read_dir(Path::new(env!("CARGO_MANIFEST_DIR")).join(path)).unwrap() {
        let path = entry.unwrap().path();
        if path.extension().is_some_and(|e| e == "rs") {
            text += &fs::read_to_string(path).unwrap();
        }
    }
    text
}

fn parameters(text: &str) -> Vec<(String, String)> {
    let named = text.split(',').filter(|p| !p.trim().is_empty());
    let pair = |p: &str| {
        let (name, kind) = p.split_once(':').unwrap();
        (name.trim().to_owned(), kind.trim().to_owned())
    };
    named.map(pair).collect()
}

/// The functions that follow a mark: `SYMBOL(PARAMETERS) -> ANSWER`, up to white space or a semicolon.
fn functions(text: &str, mark: &str) -> Vec<Function> {
    let parse = |rest: &str| {
        let (symbol, rest) = rest.split_once('(').unwrap();
        let (inner, rest) = rest.split_once(')').unwrap();
        let answer = rest.trim_start().strip_prefix("->").unwrap().trim_start();
        let end = answer.find([';', ' ', '\n']).unwrap();
        Function {
            symbol: symbol.to_owned(),
            parameters: parameters(inner),
            answer: answer[..end].to_owned(),
        }
    };
    text.split(mark).skip(1).map(parse).collect()
}

/// The functions that the library exports, in the order of its modules, which is that of the header.
fn exported() -> Vec<Function> {
    let modules = read("../../crates/exports/src/lib.rt");
    let of = |rest: &str| {
        let (name, _) = rest.split_once(';').unwrap();
        let text = read(&format!("../../crates/exports/src/{name}.rt"));
        functions(&text, "pub extern \"C\" fn ")
    };
    modules.split("\npub mod ").skip(1).flat_map(of).collect()
}

/// The types of a parameter of `sys`.
fn kinds(kind: &str) -> Vec<String> {
    let all = |kinds: &[&str]| kinds.iter().map(|k| (*k).to_owned()).collect();
    match kind {
        "model" => all(&[
            "usize", "usize", "usize", "u32", "u32", "&[u32]", "&[u32]", "&[u32]", "&[u32]",
            "&[f64]",
        ]),
        "chain" => all(&["usize", "usize", "u32", "&[u32]", "&[u32]", "&[f64]"]),
        _ => match (kind.strip_prefix("[mut "), kind.strip_prefix('[')) {
            (Some(item), _) => vec![format!("&mut [{item}")],
            (_, Some(item)) => vec![format!("&[{item}")],
            _ => all(&[kind]),
        },
    }
}

/// The functions that `sys` declares: their types, and the names of its own.
fn declared() -> Vec<(String, Vec<String>, Function)> {
    let text = read("src/sys.rs");
    let (_, text) = text.split_once("// models: ").unwrap();
    let lines: Vec<_> = text.split(" fn ").skip(1).collect();
    let names = lines
        .iter()
        .map(|l| l.split_once(" = ").unwrap().0.to_owned());
    let declared = functions(text, " = ").into_iter();
    let with_kinds = |(name, f): (String, Function)| {
        let types = f.parameters.iter().flat_map(|(_, kind)| kinds(kind));
        (name, types.collect(), f)
    };
    names.zip(declared).map(with_kinds).collect()
}

/// A parameter or an answer as C writes it.
fn in_c(kind: &str, name: &str) -> String {
    let plain = |kind: &str| match kind {
        "usize" => "size_t",
        "u32" => "uint32_t",
        "u8" => "uint8_t",
        "u64" => "uint64_t",
        "f64" => "double",
        "bool" => "bool",
        "FlowNetwork" => "struct tanqesha_network",
        "PairContribution" => "struct tanqesha_contribution",
        _ => panic!("{kind}"),
    };
    let item = |kind: &'static str, text: &str| {
        let inner = text.strip_prefix(kind)?.strip_suffix(']')?;
        Some(plain(inner))
    };
    if let Some(item) = item("&mut [", kind) {
        return format!("{item} *{name}, size_t {name}_length");
    }
    if let Some(item) = item("&[", kind) {
        return format!("const {item} *{name}, size_t {name}_length");
    }
    match kind.strip_prefix("&mut ") {
        Some(one) => format!("{} *{name}", plain(one)),
        None => format!("{} {name}", plain(kind)).trim_end().to_owned(),
    }
}

fn prototype(f: &Function) -> String {
    let parameters: Vec<_> = f.parameters.iter().map(|(n, k)| in_c(k, n)).collect();
    let (answer, symbol) = (in_c(&f.answer, ""), &f.symbol);
    format!("{answer} {symbol}({});", parameters.join(", "))
}

/// The prototypes of the header, comments and line breaks taken out.
fn prototypes() -> Vec<String> {
    let text = read("../tanqesha.h");
    let mut code = String::new();
    for part in text.split("/*") {
        code += part.split_once("*/").map_or(part, |(_, rest)| rest);
    }
    let words: Vec<_> = code.split_whitespace().collect();
    let statements = words.join(" ");
    let end = |s: &str| {
        let from = ["bool ", "double ", "uint32_t "]
            .iter()
            .filter_map(|t| s.rfind(&format!("{t}tanqesha_")));
        from.max().map(|at| format!("{});", &s[at..]))
    };
    statements.split(");").filter_map(end).collect()
}

#[test]
fn no_other_crate_exports() {
    for entry in fs::read_dir(Path::new(env!("CARGO_MANIFEST_DIR")).join("../../crates")).unwrap() {
        let source = entry.unwrap().path().join("src");
        if source.ends_with("exports/src") {
            continue;
        }
        for file in fs::read_dir(source).unwrap() {
            let file = file.unwrap().path();
            let text = fs::read_to_string(&file).unwrap();
            assert!(!text.contains("no_mangle"), "{}", file.display());
        }
    }
}

#[test]
fn the_header_has_each_function_as_it_is_exported() {
    let expected: Vec<_> = exported().iter().map(prototype).collect();
    assert!(expected.len() >= 31);
    let prototypes = prototypes();
    for (prototype, expected) in prototypes.iter().zip(&expected) {
        assert_eq!(prototype, expected);
    }
    assert_eq!(prototypes.len(), expected.len());
}

#[test]
fn sys_has_each_function_as_it_is_exported() {
    let exported = exported();
    let declared = declared();
    assert_eq!(declared.len(), exported.len());
    for ((name, types, d), e) in declared.iter().zip(&exported) {
        let expected: Vec<_> = e.parameters.iter().map(|(_, kind)| kind.clone()).collect();
        assert_eq!((&d.symbol, &d.answer), (&e.symbol, &e.answer));
        assert_eq!(&e.symbol, &format!("tanqesha_{name}"));
        assert_eq!(types, &expected, "{name}");
    }
}

#[test]
fn each_function_is_called_by_tests_and_by_the_safe_layer() {
    let (tests, safe) = (folder("tests"), folder("src"));
    let c = read("../c/check.c");
    // called, or handed on to be called
    let calls = |text: &str, name: &str| {
        [format!("{name}("), format!("{name})")]
            .iter()
            .any(|c| text.contains(c))
    };
    for (name, _, f) in declared() {
        let own = format!("sys::{name}");
        assert!(calls(&tests, &own), "{name} from Rust");
        assert!(calls(&safe, &own), "{name} from the safe layer");
        assert!(c.contains(&format!("{}(", f.symbol)), "{name} from C");
    }
}

#[test]
fn the_header_has_each_refusal() {
    let header = read("../tanqesha.h");
    for refusal in tanqesha::Refusal::ALL {
        let mut name = String::from("TANQESHA");
        for letter in format!("{refusal:?}").chars() {
            if letter.is_uppercase() {
                name.push('_');
            }
            name.push(letter.to_ascii_uppercase());
        }
        let line = format!("    {name} = {}", refusal.number());
        assert!(header.contains(&line), "{line}");
    }
}
