//! Copies the second program's source for each mutant, makes the mutant's edits, and lists the copies.

#![deny(warnings)]

#[path = "held_table.rs"]
mod held_table;
#[path = "post_table.rs"]
mod post_table;
#[path = "table.rs"]
mod table;

use held_table::HELD_MUTANTS;
use post_table::POST_MUTANTS;
use std::fmt::Write;
use std::path::Path;
use std::{env, fs};
use table::{Mutant, MUTANTS};

const SOURCE: &str = "../reference/src";

/// The modules that the calls are made of, each after those that it uses. The last has the calls.
const MODULES: [&str; 12] = [
    "words", "slots", "report", "ring", "grammar", "grants", "receive", "held", "finish", "transmit", "post",
    "calls",
];

/// A copy without edits, which must agree with the library.
const UNCHANGED: Mutant = Mutant { name: "unchanged", edits: &[] };

/// The calls, as the test and as the second program name them.
const CALLS: [(&str, &str); 4] = [
    ("take", "transmit_take"),
    ("finish", "transmit_finish"),
    ("put", "receive_put"),
    ("post", "transmit_post"),
];

/// Each table's name in the code, its mutants, and the calls by which they are told from the library.
const TABLES: [(&str, &[Mutant], &[&str]); 4] = [
    ("UNCHANGED", &[UNCHANGED], &["take", "finish", "put", "post"]),
    ("MUTANTS", MUTANTS, &["take", "put"]),
    ("HELD_MUTANTS", HELD_MUTANTS, &["take", "finish"]),
    ("POST_MUTANTS", POST_MUTANTS, &["post"]),
];

fn main() {
    println!("cargo:rerun-if-changed=table.rs");
    println!("cargo:rerun-if-changed=held_table.rs");
    println!("cargo:rerun-if-changed=post_table.rs");
    println!("cargo:rerun-if-changed={SOURCE}");
    let out = env::var("OUT_DIR").expect("OUT_DIR");
    let texts = MODULES.map(|module| fs::read_to_string(path(SOURCE, module)).expect("a module's source"));
    let mut code = String::new();
    for (name, mutants, own_calls) in TABLES {
        let mut list = String::new();
        for mutant in mutants {
            code.push_str(&copy(&out, mutant, &texts));
            writeln!(list, "({:?}, {}),", mutant.name, second(mutant, own_calls)).expect("code");
        }
        writeln!(code, "const {name}: &[(&str, Second)] = &[{list}];").expect("code");
    }
    fs::write(Path::new(&out).join("copies.rs"), code).expect("copies.rs");
}

/// The code of a mutant's calls: its own, and those of the copy without edits.
fn second(mutant: &Mutant, own_calls: &[&str]) -> String {
    let field = |(name, call): (&str, &str)| {
        let copy = if own_calls.contains(&name) { mutant.name } else { UNCHANGED.name };
        format!("{name}: {copy}::calls::{call}")
    };
    format!("Second {{ {} }}", CALLS.map(field).join(", "))
}

/// Writes a mutant's own modules to a folder, and gives the code that makes a module of them and the others.
fn copy(out: &str, mutant: &Mutant, texts: &[String]) -> String {
    let folder = format!("{out}/{}", mutant.name);
    fs::create_dir_all(&folder).expect("a folder for the copies");
    let mut code = format!("#[allow(warnings)] mod {} {{\n", mutant.name);
    let own = own_modules(mutant, texts);
    for (module, text) in MODULES.into_iter().zip(texts) {
        if !own.contains(&module) {
            writeln!(code, "pub use super::unchanged::{module};").expect("code");
            continue;
        }
        let copy = path(&folder, module);
        fs::write(&copy, edited(mutant, module, text)).expect("a copy");
        writeln!(code, "#[path = {copy:?}] pub mod {module};").expect("code");
    }
    code + "}\n"
}

fn path(folder: &str, module: &str) -> String {
    format!("{folder}/{module}.rs")
}

/// The modules of which a mutant has a copy of its own: those with edits, those that use one of these, and the calls.
/// The others are those of the copy without edits, which has all.
fn own_modules(mutant: &Mutant, texts: &[String]) -> Vec<&'static str> {
    let mut own: Vec<&str> = Vec::new();
    for (module, text) in MODULES.into_iter().zip(texts) {
        let has_edits = mutant.edits.iter().any(|edit| edit.file == format!("{module}.rs"));
        let uses_own = own.iter().any(|used| text.contains(&format!("super::{used}")));
        if mutant.edits.is_empty() || has_edits || uses_own || module == "calls" {
            own.push(module);
        }
    }
    own
}

fn edited(mutant: &Mutant, module: &str, text: &str) -> String {
    let file = format!("{module}.rs");
    let mut text = text.to_string();
    for edit in mutant.edits.iter().filter(|edit| edit.file == file) {
        let found = text.matches(edit.right).count();
        assert!(found == 1, "{}: '{}' stands {found} times in {file}", mutant.name, edit.right);
        text = text.replace(edit.right, edit.wrong);
    }
    text
}
