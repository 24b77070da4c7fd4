//! The flows under examples/: each is what its text makes, and is answered as its remark says.

use std::path::{Path, PathBuf};

use yarnuskel_host::judge::{self, Lent};
use yarnuskel_host::sides::{NO_LIBRARY, NO_ORIGINAL};
use yarnuskel_host::{answerer, cases, flow, saved, text};

fn examples() -> PathBuf {
    Path::new(env!("CARGO_MANIFEST_DIR")).parent().unwrap().join("examples")
}

fn named_texts() -> Vec<(String, String)> {
    let paths = std::fs::read_dir(examples()).unwrap().map(|entry| entry.unwrap().path());
    let texts = paths.filter(|path| path.extension().is_some_and(|e| e == "txt"));
    let name = |path: &PathBuf| path.file_stem().unwrap().to_str().unwrap().to_string();
    let mut texts: Vec<_> = texts.map(|p| (name(&p), std::fs::read_to_string(&p).unwrap())).collect();
    texts.sort();
    texts
}

fn stored(name: &str) -> Vec<u8> {
    std::fs::read(examples().join(format!("{name}.flow"))).unwrap()
}

#[test]
fn each_flow_is_what_its_text_makes() {
    let texts = named_texts();
    for (name, text) in &texts {
        let flow = text::read(text).unwrap_or_else(|e| panic!("{name}.txt, {e}"));
        assert!(stored(name) == flow.bytes(), "{name}.flow: run the command `store`");
    }
    assert!(stored("refused") == cases::refused());
    let files = std::fs::read_dir(examples()).unwrap().map(|entry| entry.unwrap().path());
    let flows = files.filter(|path| path.extension().is_some_and(|e| e == "flow")).count();
    assert_eq!(flows, texts.len() + 1, "a flow without a text, besides refused.flow");
}

#[test]
fn the_papers_flows_are_among_them() {
    for worked in cases::worked() {
        assert_eq!(flow::read(&stored(worked.name)), Ok(worked.flow), "{}", worked.name);
    }
}

/// The masks of the set-up routine's example, without sure arrays and with them.
#[test]
fn the_readme_shows_what_sure_arrays_change() {
    let readme = std::fs::read_to_string(examples().join("README.md")).unwrap();
    let masks = saved::masks(&flow::read(&stored("setup")).unwrap());
    let shown: String = masks.lines().map(|line| format!("    {line}\n")).collect();
    assert!(
        readme.contains(&shown),
        "examples/README.md is to hold what `saved ../examples/setup.flow` prints:\n{shown}"
    );
}

/// The names of the example for cells, and the cells that they share.
#[test]
fn the_readme_shows_names_and_cells() {
    let readme = std::fs::read_to_string(examples().join("README.md")).unwrap();
    let found = answerer::interfering_names(&flow::read(&stored("cells")).unwrap(), None);
    let shown: String = found.print().lines().map(|line| format!("    {line}\n")).collect();
    assert!(
        readme.contains(&shown),
        "examples/README.md is to hold what `cells ../examples/cells.flow` prints:\n{shown}"
    );
    // Fewer cells than names, though more than are live at once.
    let cells = found.cells().into_iter().max().unwrap() + 1;
    assert!(found.most < cells as u64 && cells < found.rows.len());
}

/// The masks of the interrupt key's example, without the key and with it.
#[test]
fn the_readme_shows_what_the_key_changes() {
    let readme = std::fs::read_to_string(examples().join("README.md")).unwrap();
    let masks = saved::key_masks(&flow::read(&stored("key")).unwrap());
    let shown: String = masks.lines().map(|line| format!("    {line}\n")).collect();
    assert!(
        readme.contains(&shown),
        "examples/README.md is to hold what `key ../examples/key.flow` prints:\n{shown}"
    );
}

/// Statement by statement, a mask an array.
const MASKS: [(&str, &[u8]); 7] = [
    ("dim", &[1, 1, 1, 1, 4, 1, 5, 1]),
    ("key", &[1, 3, 4, 3, 4, 3, 4, 3, 4, 3, 4, 2, 1, 3, 5, 3, 5, 2]),
    ("key_opaque", &[7; 5]),
    ("on_gosub", &[1, 1, 1, 1, 3, 3, 1, 1, 2, 1, 1, 1, 1, 2]),
    ("opaque", &[1, 1, 4, 1, 1, 1, 4, 1, 1, 1, 4, 1]),
    ("p5", &[1, 2, 1, 2]),
    ("table", &[1, 1, 4, 1, 4, 3, 4, 3, 4, 3, 4, 3]),
];

/// How many names are live at once.
const MOST: [(&str, u64); 3] = [("cells", 3), ("key", 1), ("names", 3)];

/// A word of certain names.
const CERTAIN: [(&str, u64); 2] = [("fallback", 0b1), ("names", 0b1001)];

#[test]
fn answered_as_they_say() {
    for (name, _) in named_texts() {
        let file = stored(&name);
        let lent = Lent::for_file(&file, 0);
        let right = judge::right(&file, lent);
        if let Some((_, masks)) = MASKS.iter().find(|(with, _)| *with == name) {
            assert_eq!(right.outcome.areas.masks, *masks, "{name}");
        }
        if let Some((_, word)) = CERTAIN.iter().find(|(with, _)| *with == name) {
            assert_eq!(right.outcome.certain.found, *word, "{name}");
        }
        if let Some((_, most)) = MOST.iter().find(|(with, _)| *with == name) {
            assert_eq!(right.outcome.interference.found, *most, "{name}");
        }
        assert!(right.original_agrees(&right.outcome), "{name} by the original");
        if right.original.is_none() && !right.has_key() {
            println!("{NO_ORIGINAL}");
        }
        match judge::proved_outcome(&file, lent) {
            Some(outcome) => assert!(outcome == right.outcome, "{name} by the proved call"),
            None => println!("{NO_LIBRARY}"),
        }
    }
}
