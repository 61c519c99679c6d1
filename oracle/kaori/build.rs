//! Names the source documents where they stand, and derives two more parsers from parser.rs: one counts openings, the
//! other also records the rows that it asks for, over a tree derived from ast.rs. The same of edition 2, whose parser and
//! tree are parser.rs and ast.rs with the changes of second.rs. Each parser, the original too, gets what reads a guard beside it.
use std::{env, fs, path::Path, path::PathBuf};

mod second;

/// The functions of parser.rs that counting.rs wraps, and those that recording.rs does.
const COUNTED: [&str; 5] =
    ["parse_expression", "parse_block", "parse_if", "parse_prefix_unary", "parse_for_loop"];
const RECORDED: [&str; 2] = ["advance_token", "parse_name"];
/// The function of ast.rs that inserting.rs wraps: every node is made by it.
const INSERTED: [&str; 1] = ["insert"];
/// What each parser has beside parser.rs.
const GUARDING: &str = "guarding.rs";

fn main() {
    let manifest = PathBuf::from(env::var("CARGO_MANIFEST_DIR").unwrap());
    let out = PathBuf::from(env::var("OUT_DIR").unwrap());
    println!("cargo::rerun-if-env-changed=KAORI_SRC");
    println!("cargo::rerun-if-changed=build.rs");
    println!("cargo::rerun-if-changed=second.rs");

    let root = match env::var_os("KAORI_SRC") {
        Some(folder) => PathBuf::from(folder),
        None => manifest.join("../../../shared/docs/src"),
    };
    let root = root.canonicalize().unwrap_or_else(|e| {
        panic!("no source documents at {}: {e} (KAORI_SRC names their folder)", root.display())
    });
    let source = |name: &str| {
        let path = root.join("src").join(name);
        println!("cargo::rerun-if-changed={}", path.display());
        assert!(path.is_file(), "{} is missing", path.display());
        path
    };
    let wrappers = |name: &str| {
        println!("cargo::rerun-if-changed={name}");
        fs::read_to_string(manifest.join(name)).unwrap()
    };

    let (parser, ast) = (source("syntax/parser.rs"), source("syntax/ast.rs"));
    let [parser_text, ast_text] = [&parser, &ast].map(|path| fs::read_to_string(path).unwrap());
    let [counting, recording, inserting] = ["counting.rs", "recording.rs", "inserting.rs"].map(wrappers);
    let parser_text = parser_text + &wrappers(GUARDING);
    let counted = |parser: &str, counting: &str| renamed(parser, &COUNTED) + counting;
    let recorded = |counted: &str| renamed(counted, &RECORDED) + &recording;
    let inserted = |ast: &str| renamed(ast, &INSERTED) + &inserting;

    let first_counted = counted(&parser_text, &counting);
    let second_parser = changed(&parser_text, &second::PARSER);
    let second_ast = changed(&ast_text, &second::AST);
    let second_counted = counted(&second_parser, &changed(&counting, &second::COUNTING));

    let token = source("syntax/token.rs");
    let syntax = [
        module("ast", &ast),
        module("ops", &source("syntax/ops.rs")),
        module("token", &token),
        included("parser", &[parser, manifest.join(GUARDING)]),
    ];
    let derived = [
        ("recorded_ast", inserted(&ast_text)),
        ("recorded", over("recorded_ast", &recorded(&first_counted))),
        ("counted", first_counted),
        ("second_recorded_ast", inserted(&second_ast)),
        ("second_recorded", over("second_recorded_ast", &recorded(&second_counted))),
        ("second_counted", over("second_ast", &second_counted)),
        ("second_parser", over("second_ast", &second_parser)),
        ("second_ast", second_ast),
    ];
    let derived = derived.map(|(name, text)| {
        let path = out.join(name).with_extension("rs");
        fs::write(&path, text).unwrap();
        module(name, &path)
    });
    let util = module("string_interner", &source("util/string_interner.rs"));
    let syntax = syntax.concat() + &derived.concat();
    let tree = format!("pub mod syntax {{\n{syntax}}}\npub mod util {{\n{util}}}\n");
    let text = format!("/// The text of token.rs.\npub const TOKEN_RS: &str = include_str!({token:?});\n");
    fs::write(out.join("kaori.rs"), tree + &text).unwrap();
}

fn module(name: &str, path: &Path) -> String {
    format!("    #[path = {path:?}]\n    pub mod {name};\n")
}

/// A module of several files, each as it stands.
fn included(name: &str, paths: &[PathBuf]) -> String {
    let files: String = paths.iter().map(|path| format!("        include!({path:?});\n")).collect();
    format!("    pub mod {name} {{\n{files}    }}\n")
}

/// A source with the definitions of these functions renamed to `.._inner`; their uses stay.
fn renamed(source: &str, functions: &[&str]) -> String {
    functions.iter().fold(source.to_string(), |text, name| {
        replaced(&text, &format!("    fn {name}("), &format!("    fn {name}_inner("))
    })
}

/// A parser that makes a derived tree.
fn over(tree: &str, parser: &str) -> String {
    let imported = |tree: &str| format!("        {tree}::{{Ast, NodeId, Spanned}},\n");
    replaced(parser, &imported("ast"), &imported(tree))
}

/// A source with all of these changes.
fn changed(source: &str, changes: &[second::Change]) -> String {
    changes.iter().fold(source.to_string(), |text, (old, new)| replaced(&text, old, new))
}

fn replaced(text: &str, old: &str, new: &str) -> String {
    let found = text.matches(old).count();
    assert!(found == 1, "the source has {found} times `{old}`, not once");
    text.replace(old, new)
}
