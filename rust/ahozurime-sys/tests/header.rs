//! This package against `include/ahozurime.h`: the same constants with the same values, the same
//! calls with the same arguments, and nothing that only one of the two has.

use std::any::type_name_of_val;
use std::collections::{BTreeMap, BTreeSet};

const HEADER: &str = include_str!("../../../include/ahozurime.h");
const CONSTANTS: &str = include_str!("../src/constants.rs");
const CALLS: &str = include_str!("../src/calls.rs");

type Constants = BTreeMap<String, u64>;
/// Macros of the header that are no numbers: what they say, they say to a C compiler.
type Macros = BTreeSet<String>;
/// The arguments of a call, each as `name: type`, and what it answers; in Rust's types.
type Calls = BTreeMap<String, (Vec<String>, String)>;

fn is_word(c: char) -> bool {
    c.is_alphanumeric() || c == '_'
}

/// Names, numbers, and single characters for all else.
fn tokens(text: &str) -> Vec<&str> {
    let mut tokens = Vec::new();
    let mut rest = text.trim_start();
    while let Some(first) = rest.chars().next() {
        let end = if is_word(first) {
            rest.find(|c| !is_word(c)).unwrap_or(rest.len())
        } else {
            first.len_utf8()
        };
        tokens.push(&rest[..end]);
        rest = rest[end..].trim_start();
    }
    tokens
}

/// The text without its comments, those of both languages.
fn uncommented(text: &str) -> String {
    let mut kept = String::new();
    let mut rest = text;
    while let Some((before, comment)) = rest.split_once("/*") {
        kept.push_str(before);
        rest = comment.split_once("*/").expect("a comment ends").1;
    }
    kept.push_str(rest);
    let code = |line: &str| line.split("//").next().unwrap_or_default().to_string();
    kept.replace("\\\n", " ").lines().map(code).collect::<Vec<_>>().join("\n")
}

/// A sum of products of numbers and names known by now, perhaps in parentheses; none where it is
/// anything else.
fn value(expression: &str, known: &Constants) -> Option<u64> {
    let factor = |factor: &str| {
        let factor = factor.trim();
        if !factor.starts_with(|c: char| c.is_ascii_digit()) {
            return known.get(factor).copied();
        }
        let digits = factor.replace('_', "");
        let digits = digits.trim_end_matches(['u', 'U', 'l', 'L']);
        match digits.strip_prefix("0x") {
            Some(digits) => u64::from_str_radix(digits, 16).ok(),
            None => digits.parse().ok(),
        }
    };
    let expression = expression.trim();
    let inside = expression.strip_prefix('(').and_then(|rest| rest.strip_suffix(')'));
    let product = |product: &str| product.split('*').map(factor).product::<Option<u64>>();
    inside.unwrap_or(expression).split('+').map(product).sum()
}

fn put(constants: &mut Constants, name: &str, value: u64) {
    assert_eq!(constants.insert(name.to_string(), value), None, "{name} has two values");
}

/// The header's code as a C compiler sees it, without its preprocessor lines. What these define is
/// put aside.
fn preprocessed(header: &str, constants: &mut Constants, macros: &mut Macros) -> String {
    let mut code = String::new();
    // Of each open conditional, whether what follows is for C++.
    let mut for_cpp: Vec<bool> = Vec::new();
    for line in uncommented(header).lines() {
        let Some(directive) = line.trim_start().strip_prefix('#').map(str::trim) else {
            if !for_cpp.contains(&true) {
                code.push_str(line);
                code.push('\n');
            }
            continue;
        };
        if directive.starts_with("if") {
            assert!(!directive.starts_with("ifndef __cplusplus"), "C++ comes first: {directive}");
            for_cpp.push(directive.contains("__cplusplus"));
        } else if directive.starts_with("el") {
            *for_cpp.last_mut().expect("an open conditional") = false;
        } else if directive.starts_with("endif") {
            for_cpp.pop().expect("an open conditional");
        } else if let Some(definition) = directive.strip_prefix("define ") {
            if !for_cpp.contains(&true) {
                define(definition.trim(), constants, macros);
            }
        }
    }
    code
}

/// A macro without arguments that has a number in its body, or the name of one, is a constant.
fn define(definition: &str, constants: &mut Constants, macros: &mut Macros) {
    let end = definition.find(|c| !is_word(c)).unwrap_or(definition.len());
    let (name, body) = definition.split_at(end);
    let counts = |token: &&str| {
        token.starts_with(|c: char| c.is_ascii_digit()) || constants.contains_key(*token)
    };
    if body.starts_with('(') || !tokens(body).iter().any(counts) {
        macros.insert(name.to_string());
    } else {
        let value = value(body, constants).unwrap_or_else(|| panic!("{name} is no number: {body}"));
        put(constants, name, value);
    }
}

fn enumerate(block: &[&str], constants: &mut Constants) {
    let mut next = 0;
    for constant in block.split(|&token| token == ",").filter(|constant| !constant.is_empty()) {
        if let Some(expression) = constant.get(2..).filter(|_| constant[1..2] == ["="]) {
            let said = expression.join(" ");
            next = value(&said, constants).unwrap_or_else(|| panic!("{}: {said}", constant[0]));
        }
        put(constants, constant[0], next);
        next += 1;
    }
}

fn rust_type(c: &[&str]) -> String {
    let (pointer, name) = match c {
        [name] => ("", name),
        [name, "*"] => ("*mut ", name),
        ["const", name, "*"] => ("*const ", name),
        _ => panic!("no type of this header: {c:?}"),
    };
    let name = match *name {
        "uint8_t" => "u8",
        "uint16_t" => "u16",
        "uint32_t" => "u32",
        "uint64_t" => "u64",
        "size_t" => "usize",
        "double" => "f64",
        "void" => "()",
        _ => panic!("no type of this header: {c:?}"),
    };
    format!("{pointer}{name}")
}

fn prototype(statement: &[&str], calls: &mut Calls) {
    let open = statement.iter().position(|&token| token == "(").expect("arguments");
    let close = statement.iter().rposition(|&token| token == ")").expect("the arguments' end");
    let (name, answer) = statement[..open].split_last().expect("a name");
    let arguments: Vec<String> = statement[open + 1..close]
        .split(|&token| token == ",")
        .filter(|argument| argument != &["void"])
        .map(|argument| {
            let (name, its_type) = argument.split_last().expect("a name");
            // The one name of the header that is a keyword of Rust.
            let name = if *name == "use" { "usage" } else { name };
            format!("{name}: {}", rust_type(its_type))
        })
        .collect();
    let twice = calls.insert(name.to_string(), (arguments, rust_type(answer)));
    assert_eq!(twice, None, "{name} is declared twice");
}

/// All that the header declares, but for its types and the functions that it defines over its calls.
fn of_the_header() -> (Constants, Calls) {
    let (mut constants, mut calls, mut macros) = (Constants::new(), Calls::new(), Macros::new());
    let code = preprocessed(HEADER, &mut constants, &mut macros);
    let code: Vec<&str> =
        tokens(&code).into_iter().filter(|&token| !macros.contains(token)).collect();
    let mut at = 0;
    while at < code.len() {
        let length = code[at..].iter().position(|token| ["{", ";"].contains(token));
        let end = at + length.expect("a block or a semicolon");
        let statement = &code[at..end];
        at = end + 1;
        if code[end] == ";" {
            // What a macro makes begins with its arguments; it makes types.
            if statement.contains(&"(") && statement[0] != "(" {
                prototype(statement, &mut calls);
            }
            continue;
        }
        let mut depth = 1;
        while depth > 0 {
            match code[at] {
                "{" => depth += 1,
                "}" => depth -= 1,
                _ => {}
            }
            at += 1;
        }
        match statement {
            ["enum", ..] | ["typedef", "enum", ..] => {
                enumerate(&code[end + 1..at - 1], &mut constants);
            }
            // A type, or a function with its body: none of the archive's calls has one here.
            ["typedef", "struct", ..] | ["struct", ..] | [.., ")"] => {}
            _ => panic!("no block of this header: {statement:?}"),
        }
    }
    (constants, calls)
}

/// The type that a constant has in this package: that of the argument, answer or word that it is
/// written for.
fn type_of(constant: &str) -> &'static str {
    const LENGTHS: [&str; 7] =
        ["_OCTETS", "_WORDS", "_SHORTEST", "_LONGEST", "_ENTRIES", "TAPE_OUTPUT", "STACK"];
    let name = constant.strip_prefix("AHZ_").expect("a name of the header");
    let begins = |with: &[&str]| with.iter().any(|start| name.starts_with(start));
    let ends = |with: &[&str]| with.iter().any(|end| name.ends_with(end));
    if begins(&["S_", "H_"]) || ends(&LENGTHS) {
        "usize" // places and lengths
    } else if begins(&["TYPE_", "SUFFIX_", "VLAN_", "PORT_", "HISTORY_", "RATE_"]) {
        "u16"
    } else if begins(&["VERSION", "IP_", "MILLISECONDS_"]) {
        "u32"
    } else if name == "STATE_FORMAT" {
        "u64" // what a word of a state holds
    } else {
        "u8" // refusals, answers, kinds and the rest of a setup
    }
}

fn typed(constants: Constants) -> BTreeMap<String, (String, u64)> {
    let with_type = |(name, value): (String, u64)| {
        let its_type = type_of(&name).to_string();
        (name, (its_type, value))
    };
    constants.into_iter().map(with_type).collect()
}

/// `pub const NAME: type = value;`, each.
fn of_the_constants() -> BTreeMap<String, (String, u64)> {
    let (mut constants, mut types) = (Constants::new(), BTreeMap::new());
    for item in uncommented(CONSTANTS).split(';').map(str::trim).filter(|item| !item.is_empty()) {
        let (head, expression) = item.split_once('=').expect("a value");
        let ["pub", "const", name, ":", its_type] = tokens(head)[..] else { panic!("{item}") };
        let value = value(expression, &constants).unwrap_or_else(|| panic!("{item}"));
        put(&mut constants, name, value);
        types.insert(name.to_string(), (its_type.to_string(), value));
    }
    types
}

/// `pub fn name(name: type, ..) -> type;`, each.
fn of_the_calls() -> Calls {
    let code = uncommented(CALLS);
    let (_, block) = code.split_once('{').expect("the block of calls");
    let (block, _) = block.rsplit_once('}').expect("the block's end");
    let mut calls = Calls::new();
    for item in block.split(';').map(str::trim).filter(|item| !item.is_empty()) {
        let item = item.strip_prefix("pub fn ").expect("a public call");
        let (name, rest) = item.split_once('(').expect("arguments");
        let (arguments, answer) = rest.rsplit_once(')').expect("the arguments' end");
        let arguments = arguments.split(',').map(|argument| argument.trim().to_string());
        let answer = answer.trim().strip_prefix("-> ").unwrap_or("()").to_string();
        let arguments = arguments.filter(|argument| !argument.is_empty()).collect();
        calls.insert(name.to_string(), (arguments, answer));
    }
    calls
}

/// What one of the two has and the other has not, or not so.
fn difference<T: PartialEq + std::fmt::Debug>(
    header: &BTreeMap<String, T>,
    package: &BTreeMap<String, T>,
) -> Vec<String> {
    let names = header.keys().chain(package.keys().filter(|&name| !header.contains_key(name)));
    names
        .filter(|&name| header.get(name) != package.get(name))
        .map(|name| format!("{name}: {:?} and here {:?}", header.get(name), package.get(name)))
        .collect()
}

#[test]
fn every_constant() {
    let (header, _) = of_the_header();
    let package = of_the_constants();
    assert!(header.len() > 120, "the header was not read: {header:?}");
    assert_eq!(difference(&typed(header), &package), Vec::<String>::new());
}

#[test]
fn every_call() {
    let (_, header) = of_the_header();
    let package = of_the_calls();
    assert!(header.len() > 20, "the header was not read: {header:?}");
    assert_eq!(difference(&header, &package), Vec::<String>::new());
}

#[test]
#[should_panic = "no type of this header"]
fn a_pointer_to_a_pointer_is_no_argument() {
    prototype(&tokens("uint8_t ahz_lookup(uint16_t **handle)"), &mut Calls::new());
}

/// Of the constants named, each with the type and the value that a program gets.
macro_rules! compiled {
    ($($name:ident)*) => {
        [$((
            stringify!($name),
            type_name_of_val(&ahozurime_sys::$name),
            ahozurime_sys::$name as u64,
        )),*]
    };
}

/// That what was read above is what a program gets: one constant of each type, and the archive's own
/// word for its version.
#[test]
fn what_was_read_is_what_a_program_gets() {
    let read = of_the_constants();
    let compiled = compiled!(AHZ_PASS AHZ_RATE_MOST AHZ_VERSION AHZ_STATE_FORMAT AHZ_S_WORDS);
    for (name, its_type, value) in compiled {
        assert_eq!(read[name], (its_type.to_string(), value), "{name}");
    }
    let types = |types: Vec<&str>| types.into_iter().map(str::to_string).collect::<BTreeSet<_>>();
    assert_eq!(
        types(read.values().map(|(its_type, _)| its_type.as_str()).collect()),
        types(compiled.iter().map(|(_, its_type, _)| *its_type).collect()),
    );
    // Safety: nothing is lent.
    let answered = unsafe { ahozurime_sys::ahz_version() };
    assert_eq!(answered, ahozurime_sys::AHZ_VERSION);
}
