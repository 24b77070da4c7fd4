//! What a reader has to believe: every definition that the promises of the doors rest on, followed
//! through the `use` lines of the crates' definitions. The documents hold the list that this makes.

use std::collections::{BTreeMap, BTreeSet};
use std::fs;
use std::path::Path;

/// A definition, or a type that the code declares: its lines with the comment above it, the other
/// names that it gives (constructors), and the names that its text uses.
struct Item {
    first: usize,
    last: usize,
    gives: Vec<String>,
    uses: Vec<String>,
}

/// A file: its items by name, and what its `use` lines bring: a name stands for a name of a
/// module, or for the module itself.
#[derive(Default)]
struct Module {
    path: String,
    items: BTreeMap<String, Item>,
    order: Vec<String>,
    names: BTreeMap<String, (String, String)>,
    modules: BTreeMap<String, String>,
}

/// A name starts with a letter; paths have dots between names.
fn words(text: &str) -> Vec<String> {
    let inside = |c: char| c.is_alphanumeric() || "_-⁺'₀₁₂ᴰ".contains(c);
    let mut out = Vec::new();
    let mut word = String::new();
    let mut before = ' ';
    for c in text.chars().chain([' ']) {
        if inside(c) && (!word.is_empty() || c.is_alphabetic() || c == '_') || (c == '.' && !word.is_empty())
        {
            word.push(c);
        } else if !word.is_empty() {
            // ` .field` asks for a field of a value
            if !word.starts_with('.') {
                out.push(word.trim_end_matches('.').to_string());
            }
            word.clear();
        }
        if c == '.' && word.is_empty() && before == ' ' {
            word.push('.');
        }
        before = c;
    }
    out
}

/// The types that a field or a variant of a declared type holds.
fn held(line: &str) -> Vec<String> {
    line.split_once(['(', ':']).map_or(Vec::new(), |(_, types)| words(types))
}

fn uncommented(line: &str, mark: &str) -> String {
    match line.find(mark) {
        Some(at) if at == 0 || line[..at].ends_with(' ') => line[..at].to_string(),
        _ => line.to_string(),
    }
}

/// The name that a line at the margin defines, if it is no equation of the item at hand.
fn defined(line: &str) -> Option<String> {
    let marks = ["abbrev", "unfoldable", "pub", "data", "record"];
    let mut rest = line.split_whitespace().skip_while(|w| marks.contains(w));
    let name = rest.next()?;
    let begins = marks.iter().any(|m| line.starts_with(&format!("{m} "))) || rest.next() == Some(":");
    (begins && !line.starts_with("pub use") && !line.starts_with("pub mod")).then(|| name.to_string())
}

fn strip<'a>(line: &'a str, heads: &[&str]) -> Option<&'a str> {
    heads.iter().find_map(|head| line.strip_prefix(head))
}

/// `Rattle.flow.specs.Format` is the module flow/Format; what is not of this repository keeps its path.
fn module_of(path: &str) -> String {
    let Some(rest) = path.strip_prefix("Rattle.") else { return format!("~{path}") };
    let (krate, rest) = rest.split_once('.').unwrap_or((rest, ""));
    let rest = strip(rest, &["specs."]).unwrap_or(rest);
    format!("{krate}/{}", rest.replace('.', "/"))
}

impl Module {
    fn bring(&mut self, line: &str) {
        let line = line.trim_end_matches(';');
        if let Some((path, names)) = line.split_once(".{") {
            let module = module_of(path);
            for name in names.trim_end_matches('}').split(',').map(str::trim) {
                let (from, to) = name.split_once(" as ").unwrap_or((name, name));
                self.names.insert(to.to_string(), (module.clone(), from.to_string()));
            }
        } else {
            let (path, alias) = line.split_once(" as ").unwrap_or((line, line.rsplit('.').next().unwrap()));
            self.modules.insert(alias.to_string(), module_of(path));
        }
    }

    fn read(path: &str, text: &str) -> Module {
        let mut module = Module { path: path.to_string(), ..Module::default() };
        let mut open: Option<String> = None;
        let mut comment = None;
        for (number, line) in text.lines().enumerate().map(|(k, line)| (k + 1, line)) {
            if let Some(used) = strip(line, &["use ", "pub use "]) {
                module.bring(used);
            } else if line.starts_with("--") {
                open = None;
                comment = comment.or(Some(number));
                continue;
            } else if line.is_empty() {
                open = None;
            } else if let Some(name) = defined(line).filter(|_| !line.starts_with(' ')) {
                let item = Item {
                    first: comment.unwrap_or(number),
                    last: number,
                    gives: Vec::new(),
                    uses: Vec::new(),
                };
                module.items.insert(name.clone(), item);
                module.order.push(name.clone());
                open = Some(name);
            } else if open.is_none() && !line.starts_with(' ') {
                // equations go on after a blank line or a comment
                open = line
                    .split_whitespace()
                    .next()
                    .map(str::to_string)
                    .filter(|name| module.items.contains_key(name));
            }
            comment = None;
            if let Some(item) = open.as_ref().and_then(|name| module.items.get_mut(name)) {
                item.last = number;
                let code = uncommented(line, "-- ");
                if let (true, Some((names, _))) = (line.starts_with("  "), code.split_once(" : ")) {
                    item.gives.extend(names.split_whitespace().filter(|w| *w != "pub").map(str::to_string));
                }
                item.uses.extend(words(&code));
            }
        }
        module
    }

    /// The types that a source file declares: their names, and the types that they hold.
    fn declared(path: &str, text: &str) -> Module {
        let mut module = Module { path: path.to_string(), ..Module::default() };
        let mut open: Option<String> = None;
        let mut comment = None;
        for (number, line) in text.lines().enumerate().map(|(k, line)| (k + 1, line)) {
            if let Some(rest) = strip(line, &["pub struct ", "pub enum "]) {
                let name: String = rest.chars().take_while(|c| c.is_alphanumeric()).collect();
                let item = Item {
                    first: comment.unwrap_or(number),
                    last: number,
                    gives: Vec::new(),
                    uses: held(rest),
                };
                module.items.insert(name.clone(), item);
                module.order.push(name.clone());
                open = (!line.ends_with(';')).then_some(name);
            } else if let Some(item) = open.as_ref().and_then(|name| module.items.get_mut(name)) {
                item.last = number;
                item.uses.extend(held(&uncommented(line, "// ")));
                if line == "}" {
                    open = None;
                }
            }
            // an attribute may stand between a type and the comment above it
            comment = strip(line, &["//", "#["]).and(comment.or(Some(number)));
        }
        module
    }
}

/// All definitions of the repository, in reading order.
pub struct Library {
    modules: Vec<(String, Module)>,
}

fn text_of(path: &Path) -> String {
    fs::read_to_string(path).unwrap_or_else(|e| panic!("{}: {e}", path.display()))
}

fn rattle_sources(folder: &Path) -> Vec<std::path::PathBuf> {
    let mut sources: Vec<_> =
        fs::read_dir(folder).into_iter().flatten().flatten().map(|entry| entry.path()).collect();
    sources.retain(|path| path.extension().is_some_and(|e| e == "rt"));
    sources.sort();
    sources
}

/// A door: a function that crates/yarnuskel exports to other languages.
fn is_door(file: &str, before: &str, _: &str) -> bool {
    file.starts_with("yarnuskel/") && before == "#[unsafe(no_mangle)]"
}

/// The function of the listing program that writes its text.
fn is_listing(file: &str, _: &str, line: &str) -> bool {
    file.starts_with("listing/") && line.starts_with("pub fn listing(")
}

impl Library {
    pub fn load(root: &Path) -> Library {
        let listed = text_of(&root.join("crates.txt"));
        let crates = listed
            .lines()
            .filter(|l| !l.starts_with('#'))
            .filter_map(|l| l.split_once(':'))
            .filter_map(|(name, _)| name.split_whitespace().next());
        let mut modules = Vec::new();
        for name in crates {
            for source in rattle_sources(&root.join("crates").join(name).join("src")) {
                let file = source.file_name().unwrap().to_str().unwrap().to_string();
                modules.push((
                    format!("{name}/src/{file}"),
                    Module::declared(&format!("{name}/src/{file}"), &text_of(&source)),
                ));
            }
            Library::below(root, name, "Lib", "", &mut modules);
        }
        Library { modules }
    }

    fn below(root: &Path, krate: &str, file: &str, inside: &str, out: &mut Vec<(String, Module)>) {
        let path = format!("{krate}/specs/{inside}{file}.antt");
        let Ok(text) = fs::read_to_string(root.join("crates").join(&path)) else { return };
        let inside = if file == "Lib" { String::new() } else { format!("{inside}{file}/") };
        if file != "Lib" {
            out.push((format!("{krate}/{}", inside.trim_end_matches('/')), Module::read(&path, &text)));
        }
        for child in text.lines().filter_map(|line| line.strip_prefix("pub mod ")) {
            Library::below(root, krate, child.trim(), &inside, out);
        }
    }

    fn module(&self, name: &str) -> Option<&Module> {
        self.modules.iter().find(|(n, _)| n == name).map(|(_, m)| m)
    }

    /// The module and the item that a name of a module means, through what the module brings on.
    fn find(&self, module: &str, name: &str) -> Option<(String, String)> {
        if let Some((krate, rest)) = module.split_once("/declared/") {
            let kind = rest.split('/').next().unwrap();
            let own = |(n, m): &&(String, Module)| {
                n.starts_with(&format!("{krate}/src/")) && m.items.contains_key(kind)
            };
            return self.modules.iter().find(own).map(|(n, _)| (n.clone(), kind.to_string()));
        }
        let here = self.module(module)?;
        if here.items.contains_key(name) {
            return Some((module.to_string(), name.to_string()));
        }
        if let Some(item) = here.items.iter().find(|(_, item)| item.gives.iter().any(|g| g == name)) {
            return Some((module.to_string(), item.0.clone()));
        }
        let (from, what) = here.names.get(name)?;
        self.find(from, what)
    }

    /// The path of a module that is the toolchain's.
    fn outside(&self, module: &str) -> Option<String> {
        let krate = module.split('/').next().unwrap();
        let own = self.modules.iter().any(|(name, _)| name.split('/').next() == Some(krate));
        (!own).then(|| module.trim_start_matches('~').replace('/', "."))
    }

    /// What a word of a module's text means: an item of the repository, or a name of the toolchain.
    fn means(&self, module: &str, here: &Module, word: &str) -> Result<(String, String), Option<String>> {
        let mut parts = word.split('.');
        let (head, next) = (parts.next().unwrap(), parts.next());
        if let Some((from, name)) = here.names.get(head) {
            return self
                .find(from, name)
                .ok_or_else(|| self.outside(from).map(|path| format!("{path}.{name}")));
        }
        if let (Some(from), Some(name)) = (here.modules.get(head), next) {
            return self.find(from, name).ok_or(None);
        }
        self.find(module, head).ok_or(None)
    }

    /// The names in the contracts of the functions that a source file exports, with what they mean there.
    fn roots(&self, text: &str, exported: impl Fn(&str, &str) -> bool) -> Vec<(String, String)> {
        let mut here = Module::default();
        text.lines().filter_map(|line| line.strip_prefix("ghost use ")).for_each(|line| here.bring(line));
        let mut found = Vec::new();
        let (mut before, mut inside, mut clauses) = ("", false, false);
        for line in text.lines() {
            inside = inside && line != "{" || exported(before, line);
            let clause = strip(line.trim_start(), &["requires ", "ensures "]);
            clauses = inside && (clauses || clause.is_some());
            if clauses {
                // a clause may have a name, before its brace
                found.extend(words(clause.and_then(|c| c.split_once('{')).map_or(line, |(_, said)| said)));
            }
            before = line;
        }
        found.iter().filter_map(|word| self.means("", &here, word).ok()).collect()
    }

    /// What is named in the contracts of the functions that the test picks by their file, the line before
    /// and their first line.
    fn named(&self, root: &Path, exported: impl Fn(&str, &str, &str) -> bool) -> Vec<(String, String)> {
        let sources = self.modules.iter().filter(|(name, _)| name.contains("/src/"));
        let named = |(name, module): &(String, Module)| {
            let text = text_of(&root.join("crates").join(&module.path));
            self.roots(&text, |before, line| exported(name, before, line))
        };
        sources.flat_map(named).collect()
    }

    /// All that these rest on: definitions of the repository, and names of the toolchain.
    fn below_all(&self, mut todo: Vec<(String, String)>) -> (BTreeSet<(String, String)>, BTreeSet<String>) {
        let mut seen = BTreeSet::new();
        let mut toolchain = BTreeSet::new();
        while let Some((module, name)) = todo.pop() {
            if !seen.insert((module.clone(), name.clone())) {
                continue;
            }
            let here = self.module(&module).unwrap();
            for word in &here.items[&name].uses {
                match self.means(&module, here, word) {
                    Ok(found) => todo.push(found),
                    Err(Some(path)) => drop(toolchain.insert(path)),
                    Err(None) if module.contains("/src/") => todo.extend(self.type_named(word)),
                    Err(None) => {}
                }
            }
        }
        (seen, toolchain)
    }

    /// Every definition that the promises of the doors rest on, and what the listing's promise rests on besides.
    pub fn believed(&self, root: &Path) -> String {
        let doors = self.below_all(self.named(root, is_door));
        let mut listing = self.below_all(self.named(root, is_listing));
        listing.0.retain(|item| !doors.0.contains(item));
        listing.1.retain(|path| !doors.1.contains(path));
        format!(
            "{}\nThe promise of the listing program rests on these besides:\n\n{}",
            self.table(&doors),
            self.table(&listing)
        )
    }

    /// The names of those definitions, each with its module.
    pub fn believed_names(&self, root: &Path) -> BTreeSet<(String, String)> {
        let all = |name: &str, before: &str, line: &str| {
            is_door(name, before, line) || is_listing(name, before, line)
        };
        self.below_all(self.named(root, all)).0
    }

    fn type_named(&self, word: &str) -> Option<(String, String)> {
        let holds = |(n, m): &&(String, Module)| n.contains("/src/") && m.items.contains_key(word);
        self.modules.iter().find(holds).map(|(n, _)| (n.clone(), word.to_string()))
    }

    fn table(&self, (seen, toolchain): &(BTreeSet<(String, String)>, BTreeSet<String>)) -> String {
        let mut out = String::from("| file | lines | definitions, each with its lines |\n|---|---|---|\n");
        let (mut count, mut all) = (0, 0);
        for (name, module) in &self.modules {
            let own: Vec<_> =
                module.order.iter().filter(|item| seen.contains(&(name.clone(), (*item).clone()))).collect();
            if own.is_empty() {
                continue;
            }
            let lines: usize =
                own.iter().map(|item| module.items[*item].last + 1 - module.items[*item].first).sum();
            let each: Vec<_> = own
                .iter()
                .map(|i| format!("`{i}` {}-{}", module.items[*i].first, module.items[*i].last))
                .collect();
            out += &format!("| {} | {lines} | {} |\n", module.path, each.join(", "));
            count += own.len();
            all += lines;
        }
        let names: Vec<_> = toolchain.iter().map(|path| format!("`{path}`")).collect();
        out + &format!(
            "| all | {all} | {count} definitions; of the toolchain's own: {} |\n",
            names.join(", ")
        )
    }
}
