//! Cuts the original functions, unchanged, out of the supplied source tree, and links the proved
//! library where it is built. What is absent is left out, and the package builds without it.

use std::path::{Path, PathBuf};
use std::{env, fs};

/// The start lines of the items that are cut, by file.
const ITEMS: [(&str, &str, &[&str]); 3] = [
    ("crates/core/src/ast.rs", "ast.rs", &["pub struct VarName {", "pub enum VarKind {"]),
    (
        "crates/core/src/cfg.rs",
        "cfg.rs",
        &["pub struct StmtPath {", "pub struct CfgNode {", "pub struct Cfg {"],
    ),
    (
        "crates/core/src/dataflow.rs",
        "dataflow.rs",
        &[
            "pub trait Lattice: Clone + PartialEq {",
            "pub enum Direction {",
            "pub trait DataflowAnalysis {",
            "pub fn solve<D: DataflowAnalysis>(",
            "impl Lattice for HashSet<VarName> {",
            "pub struct LiveVars;",
            "impl crate::analysis::Analysis for LiveVars {",
            "pub struct LiveVarsResult {",
            "struct LiveVarsFlow {",
            "impl DataflowAnalysis for LiveVarsFlow {",
            "pub struct InterferenceGraph {",
            "impl InterferenceGraph {",
            "pub struct VarInterference;",
            "impl crate::analysis::Analysis for VarInterference {",
            "struct DefinedSet {",
            "impl Lattice for DefinedSet {",
            "struct DefinedFlow;",
            "impl DataflowAnalysis for DefinedFlow {",
            "pub struct DefinedBeforeUse;",
            "impl crate::analysis::Analysis for DefinedBeforeUse {",
            "pub const ARRAY_NONE: u8 = 1;",
            "pub const ARRAY_AUTO: u8 = 2;",
            "pub const ARRAY_DIMMED: u8 = 4;",
            "pub struct ArrayStates {",
            "struct ArrayMasks(Vec<u8>);",
            "impl Lattice for ArrayMasks {",
            "struct ArrayStateFlow<'a> {",
            "impl DataflowAnalysis for ArrayStateFlow<'_> {",
            "struct SubEffect {",
            "fn call_targets(stmt: &Stmt) -> Vec<u16> {",
            "fn sub_effect(",
            "fn summarize_calls(",
            "pub fn array_states(module: &Module, cfg: &Cfg, arrays: &[VarName]) -> ArrayStates {",
        ],
    ),
];

/// The item that starts at `start`, with what is said before it, up to its closing line.
fn cut(text: &str, start: &str) -> Result<String, String> {
    let lines: Vec<&str> = text.lines().collect();
    let found: Vec<usize> = (0..lines.len()).filter(|&i| lines[i] == start).collect();
    let &[at] = &found[..] else {
        return Err(format!("start line `{start}` stands {} times, and once is needed", found.len()));
    };
    let before = |&i: &usize| lines[i].starts_with("#[") || lines[i].starts_with("///");
    let first = (0..at).rev().take_while(before).last().unwrap_or(at);
    let ends = |i: &usize| match *i == at {
        true => start.ends_with(';'),
        false => lines[*i] == "}",
    };
    match (at..lines.len()).find(ends) {
        Some(last) => Ok(lines[first..=last].join("\n") + "\n"),
        None => Err(format!("the item at `{start}` has no closing line")),
    }
}

fn cut_tree(tree: &Path, out: &Path) -> Result<(), String> {
    for (file, to, starts) in ITEMS {
        let path = tree.join(file);
        let text = fs::read_to_string(&path).map_err(|e| format!("{}: {e}", path.display()))?;
        let mut items = String::new();
        for start in starts {
            items += &cut(&text, start).map_err(|e| format!("{file}: {e}"))?;
        }
        fs::write(out.join(to), items).map_err(|e| e.to_string())?;
    }
    Ok(())
}

fn original(root: &Path) {
    println!("cargo::rerun-if-env-changed=YARNUSKEL_RUST_SRC");
    let given = env::var_os("YARNUSKEL_RUST_SRC").map(PathBuf::from);
    let tree = given.unwrap_or_else(|| root.join("../shared/docs/src"));
    println!("cargo::rerun-if-changed={}", tree.display());
    if !tree.is_dir() {
        return;
    }
    match cut_tree(&tree, Path::new(&env::var_os("OUT_DIR").unwrap())) {
        Ok(()) => println!("cargo::rustc-cfg=original"),
        Err(message) => println!("cargo::error=the original Rust: {message}"),
    }
}

/// The archive of the proved library, and the cfg that says it is there.
fn proved(root: &Path) {
    let folder = root.join("target/staticlib");
    let archive = folder.join("libyarnuskel.a");
    println!("cargo::rerun-if-changed={}", folder.display());
    println!("cargo::rerun-if-changed={}", archive.display());
    if archive.is_file() {
        println!("cargo::rustc-link-search=native={}", folder.display());
        println!("cargo::rustc-link-lib=static=yarnuskel");
        println!("cargo::rustc-cfg=proved");
    }
}

fn main() {
    println!("cargo::rerun-if-changed=build.rs");
    let host = PathBuf::from(env::var_os("CARGO_MANIFEST_DIR").unwrap());
    let root = host.parent().unwrap();
    original(root);
    proved(root);
}
