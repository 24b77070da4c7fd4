//! What a reader has to believe: the list in the documents is the one that the definitions give, no
//! definition rests on a proof, and none of them is an internal contract.

use std::collections::BTreeSet;
use std::fs;
use std::path::{Path, PathBuf};

use yarnuskel_host::reading::Library;

fn root() -> PathBuf {
    Path::new(env!("CARGO_MANIFEST_DIR")).parent().unwrap().to_path_buf()
}

#[test]
fn the_documents_hold_this_list() {
    let list = Library::load(&root()).believed(&root());
    let document = fs::read_to_string(root().join("docs/PROOFS.md")).unwrap();
    assert!(
        document.contains(&list),
        "docs/PROOFS.md, \"What you have to read\", is not what the command `definitions` prints"
    );
}

#[test]
fn no_promise_rests_on_an_internal_contract() {
    let list = Library::load(&root()).believed(&root());
    let inside: Vec<_> = list.lines().filter(|line| line.contains("/Clauses/")).collect();
    assert!(inside.is_empty(), "{inside:?}");
    assert!(
        list.contains("`Door`") && list.contains("`verdict_number`"),
        "the doors' contracts were not found"
    );
}

fn below(folder: &Path, extension: &str, out: &mut Vec<PathBuf>) {
    for path in fs::read_dir(folder).unwrap().map(|entry| entry.unwrap().path()) {
        if path.is_dir() {
            below(&path, extension, out);
        } else if path.extension().is_some_and(|e| e == extension) {
            out.push(path);
        }
    }
}

/// The files of one folder of every crate.
fn of_crates(folder: &str, extension: &str) -> Vec<PathBuf> {
    let mut files = Vec::new();
    for entry in fs::read_dir(root().join("crates")).unwrap() {
        let inside = entry.unwrap().path().join(folder);
        if inside.is_dir() {
            below(&inside, extension, &mut files);
        }
    }
    assert!(files.len() > 20, "the {extension} files of {folder} were not found");
    files
}

/// The list starts from the doors of crates/yarnuskel, so a door elsewhere would be left out of it.
#[test]
fn every_door_is_in_one_crate() {
    let doors = root().join("crates/yarnuskel");
    for file in of_crates("src", "rt").iter().filter(|file| !file.starts_with(&doors)) {
        let text = fs::read_to_string(file).unwrap();
        assert!(!text.contains("no_mangle"), "{} exports a function", file.display());
    }
}

#[test]
fn no_definition_cites_a_proof() {
    for file in of_crates("specs", "antt") {
        let text = fs::read_to_string(&file).unwrap();
        let cites = text
            .lines()
            .find(|line| line.contains("use ") && line.contains(".proofs."));
        assert!(cites.is_none(), "{}: {}", file.display(), cites.unwrap());
    }
}

/// The rows of docs/DEFINITIONS.md: the crate that a section names, and the definition.
fn rows() -> BTreeSet<(String, String)> {
    let document = fs::read_to_string(root().join("docs/DEFINITIONS.md")).unwrap();
    let mut krate = String::new();
    let mut rows = BTreeSet::new();
    for line in document.lines() {
        if let Some(title) = line.strip_prefix("## ") {
            krate = title.split(':').next().unwrap().to_string();
        } else if let Some((name, _)) = line.strip_prefix("| `").and_then(|rest| rest.split_once('`')) {
            assert!(rows.insert((krate.clone(), name.to_string())), "{krate}: `{name}` has two rows");
        }
    }
    rows
}

#[test]
fn each_of_them_says_what_fails_if_it_is_wrong() {
    let believed = Library::load(&root()).believed_names(&root());
    let believed: BTreeSet<_> = believed
        .into_iter()
        .map(|(module, name)| (module.split('/').next().unwrap().to_string(), name))
        .collect();
    let rows = rows();
    let without: Vec<_> = believed.difference(&rows).collect();
    let beside: Vec<_> = rows.difference(&believed).collect();
    assert!(
        without.is_empty() && beside.is_empty(),
        "without a row: {without:?}; a row of no such definition: {beside:?}"
    );
}

/// The functions whose contracts a page names (`contract of ..`, `contracts of ..`), the last of them with the crate that stands behind it.
fn contracts_named(page: &str) -> Vec<(String, Option<String>)> {
    let mut named = Vec::new();
    for rest in page.split("contract").skip(1) {
        let rest = rest.strip_prefix('s').unwrap_or(rest);
        let Some(mut rest) = rest.strip_prefix(" of ") else { continue };
        let mut functions = Vec::new();
        while let Some((function, behind)) = rest.strip_prefix('`').and_then(|r| r.split_once('`')) {
            functions.push(function.to_string());
            rest = behind.strip_prefix(", ").or(behind.strip_prefix(" and ")).unwrap_or(behind);
        }
        let place = rest.strip_prefix(" (").and_then(|r| r.split([')', '/', ',', ' ']).next());
        let krate = place.filter(|place| root().join("crates").join(place).is_dir());
        let last = functions.len();
        let with_place = |(k, f): (usize, String)| (f, krate.filter(|_| k + 1 == last).map(str::to_string));
        named.extend(functions.into_iter().enumerate().map(with_place));
    }
    named
}

#[test]
fn each_contract_that_a_page_names_is_that_of_a_function() {
    let sources: Vec<_> =
        of_crates("src", "rt").into_iter().map(|file| (fs::read_to_string(&file).unwrap(), file)).collect();
    let stands = |function: &str, krate: &Option<String>| {
        let starts = [format!("fn {function}("), format!("fn {function}<")];
        sources
            .iter()
            .filter(|(_, file)| {
                krate.as_ref().is_none_or(|k| file.starts_with(root().join("crates").join(k)))
            })
            .any(|(text, _)| starts.iter().any(|start| text.contains(start)))
    };
    for page in ["README.md", "docs/PROOFS.md", "docs/DEFINITIONS.md", "docs/DECISIONS.md", "docs/ROADMAP.md"] {
        let named = contracts_named(&fs::read_to_string(root().join(page)).unwrap());
        // A definition that a contract cites may stand behind its function.
        let is_function = |f: &str| !f.ends_with("..") && f.starts_with(char::is_lowercase);
        let gone: Vec<_> = named.iter().filter(|(f, krate)| is_function(f) && !stands(f, krate)).collect();
        assert!(gone.is_empty(), "{page} names contracts of no function: {gone:?}");
        assert!(page != "docs/DEFINITIONS.md" || named.len() > 50, "the contracts of {page} were not found");
    }
}
