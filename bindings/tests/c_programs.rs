//! The header and the library from C: the header alone, the example of
//! docs/C-INTERFACE.md, and a program that calls every function.

use std::path::{Path, PathBuf};
use std::process::Command;

fn top() -> PathBuf {
    Path::new(env!("CARGO_MANIFEST_DIR")).join("..")
}

fn read(path: &str) -> String {
    std::fs::read_to_string(top().join(path)).unwrap()
}

/// A path for something that a test makes.
fn made(name: &str) -> PathBuf {
    Path::new(env!("CARGO_TARGET_TMPDIR")).join(name)
}

/// Runs a command, which must succeed without a word of complaint, and gives
/// what it writes.
fn run(command: &mut Command) -> String {
    let output = command.output().expect("the command starts");
    let complaint = String::from_utf8_lossy(&output.stderr);
    assert!(output.status.success(), "{command:?}\n{complaint}");
    assert_eq!(complaint, "", "{command:?}");
    String::from_utf8(output.stdout).unwrap()
}

fn compile(compiler: &str, words: &[&str], source: &Path, program: &Path) {
    run(Command::new(compiler)
        .args(words)
        .args(["-Wall", "-Wextra", "-pedantic", "-o"])
        .arg(program)
        .arg(source)
        .arg("-I")
        .arg(top().join("include"))
        .arg(top().join("crates/plug_capi/out/libplug_capi.a")));
}

/// The first block of a kind in a document.
fn block(document: &str, kind: &str) -> String {
    let begin = format!("```{kind}\n");
    let from = document.find(&begin).expect("there is such a block") + begin.len();
    let length = document[from..].find("```").expect("the block ends");
    document[from..from + length].to_string()
}

#[test]
fn the_header_compiles_alone() {
    for (compiler, language, standard) in [("gcc", "c", "-std=c99"), ("g++", "c++", "-std=c++11")] {
        run(Command::new(compiler)
            .args([standard, "-Wall", "-Wextra", "-pedantic"])
            .args(["-fsyntax-only", "-x", language])
            .arg(top().join("include/plug.h")));
    }
}

/// Who links the library without a C library has to bring these two.
#[test]
fn the_library_needs_memcpy_and_memset_alone() {
    let archive = top().join("crates/plug_capi/out/libplug_capi.a");
    let names = run(Command::new("nm").arg("-u").arg(archive));
    let needed: Vec<&str> = names
        .lines()
        .filter_map(|line| line.trim().strip_prefix("U "))
        .collect();
    assert_eq!(needed, ["memcpy", "memset"]);
}

#[test]
fn the_example_of_the_document() {
    let document = read("docs/C-INTERFACE.md");
    let source = made("example.c");
    std::fs::write(&source, block(&document, "c")).unwrap();
    let program = made("example");
    compile("gcc", &["-std=c99"], &source, &program);
    assert_eq!(run(&mut Command::new(&program)), block(&document, "text"));
}

#[test]
fn every_function_from_c_and_from_cpp() {
    let source = top().join("bindings/tests/every_function.c");
    for (compiler, words, name) in [
        ("gcc", &["-std=c99", "-O1"][..], "every_function_c"),
        ("g++", &["-x", "c++", "-std=c++11"], "every_function_cpp"),
    ] {
        let program = made(name);
        // The library comes after the source and is not to be read as C++.
        let object = made(&format!("{name}.o"));
        run(Command::new(compiler)
            .args(words)
            .args(["-Wall", "-Wextra", "-pedantic", "-c", "-o"])
            .arg(&object)
            .arg(&source)
            .arg("-I")
            .arg(top().join("include")));
        compile(compiler, &[], &object, &program);
        assert_eq!(run(&mut Command::new(&program)), "all 27 functions\n");
    }
}

/// The words of a text that are names of functions of the interface, each
/// followed by the given mark.
fn functions(text: &str, mark: &str) -> Vec<String> {
    let mut names: Vec<String> = text
        .split("plug_")
        .skip(1)
        .filter_map(|rest| {
            let end = rest.find(|c: char| !c.is_ascii_alphanumeric() && c != '_')?;
            rest[end..]
                .starts_with(mark)
                .then(|| rest[..end].to_string())
        })
        .collect();
    names.sort();
    names.dedup();
    names
}

#[test]
fn header_document_and_bindings_name_the_same_functions() {
    let header = functions(&read("include/plug.h"), "(");
    assert_eq!(header.len(), 27);
    let document = read("docs/C-INTERFACE.md");
    let table: String = document
        .lines()
        .filter(|line| line.starts_with("| `plug_"))
        .collect::<Vec<_>>()
        .join("\n");
    assert_eq!(functions(&table, "`"), header);
    let bindings = read("bindings/src/calls.rs");
    let declared: Vec<String> = functions(&bindings, " as ");
    assert_eq!(declared, header);
    assert_eq!(
        functions(&read("bindings/tests/every_function.c"), "("),
        header
    );
}

#[test]
fn header_and_bindings_have_the_same_sizes() {
    let header = read("include/plug.h");
    for (name, size) in [
        ("IMAGE_SIZE", plug::IMAGE_SIZE),
        ("SHEET_SIZE", plug::SHEET_SIZE),
        ("NUMBER_SIZE", plug::NUMBER_SIZE),
        ("PAGE_SIZE", plug::PAGE_SIZE),
        ("CHIP_STATE_SIZE", plug::CHIP_STATE_SIZE),
        ("NUMBER_STATE_SIZE", plug::NUMBER_STATE_SIZE),
        ("PAGE_STATE_SIZE", plug::PAGE_STATE_SIZE),
        ("PUBLISHER_STATE_SIZE", plug::PUBLISHER_STATE_SIZE),
        ("ANSWER_SIZE", plug::ANSWER_SIZE),
        ("LIST_TEXT_SIZE", plug::LIST_TEXT_SIZE),
    ] {
        let line = format!("#define PLUG_{name} {size}\n");
        assert!(header.contains(&line), "{line}");
    }
}
