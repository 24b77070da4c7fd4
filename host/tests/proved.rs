//! The proved library beside the stored answers, the original and the reference answerer. Without
//! its archive each test says so in a line and passes.

use std::path::{Path, PathBuf};
use std::process::{Command, Stdio};

use yarnuskel_host::answerer;
use yarnuskel_host::judge::{self, Comparison, Lent};
use yarnuskel_host::sides::NO_LIBRARY;
use yarnuskel_host::{bench, cases, flow, listing, stack, store, text, worst};

const SEED: u64 = 2;

fn root() -> PathBuf {
    Path::new(env!("CARGO_MANIFEST_DIR")).parent().unwrap().into()
}

fn stored() -> Vec<store::Stored> {
    store::read(&std::fs::read(root().join(store::PLACE)).unwrap())
}

fn no_differences(count: u64, comparison: Option<Comparison>, absent: &str) {
    let Some(comparison) = comparison else { return println!("{absent}") };
    comparison.print(count, SEED);
    assert!(comparison.differences.is_empty());
}

#[test]
fn stored_answers_by_the_proved_reader() {
    for (number, stored) in stored().iter().enumerate() {
        match judge::reader_agrees(&stored.file, stored.outcome.answer) {
            Some(agrees) => assert!(agrees, "stored case {number}"),
            None => return println!("{NO_LIBRARY}"),
        }
    }
}

#[test]
fn random_files_by_the_proved_reader() {
    no_differences(20_000, judge::compare_reader(20_000, SEED), NO_LIBRARY);
}

#[test]
fn stored_answers_by_the_proved_call() {
    for (number, stored) in stored().iter().enumerate() {
        match judge::proved_outcome(&stored.file, stored.lent) {
            Some(outcome) => assert!(outcome == stored.outcome, "stored case {number}"),
            None => return println!("{NO_LIBRARY}"),
        }
    }
}

#[test]
fn random_files_by_the_proved_call() {
    no_differences(20_000, judge::compare_proved(20_000, SEED), NO_LIBRARY);
}

/// The flows of the benchmarks are at the limits of size, and so are those with many sure arrays, those with an
/// interrupt key, and those with many sets of names.
#[test]
fn large_flows_by_the_proved_call() {
    let flows = bench::flows().into_iter().chain([("names", bench::one_name_at_a_time())]);
    let flows = flows.chain(bench::key_flows()).chain(bench::growing_flows());
    let sure = worst::sure_files().map(|file| ("sure arrays", file));
    let key = worst::key_files().map(|file| ("the key", file));
    let names = worst::names_files().map(|file| ("interference", file));
    let files = flows.map(|(name, flow)| (name, flow.bytes())).chain(sure).chain(key).chain(names);
    for (name, file) in files {
        let lent = Lent::for_file(&file, 1);
        match judge::proved_outcome(&file, lent) {
            Some(outcome) => assert!(outcome == judge::outcome(&file, lent, None), "{name}"),
            None => return println!("{NO_LIBRARY}"),
        }
    }
}

/// No proof speaks of the machine stack: the deepest nest of subroutines, in both orders of the file.
#[test]
fn deepest_nests_in_a_small_thread() {
    for order in stack::ORDERS {
        let flow = stack::nest(order, stack::DEEPEST);
        match stack::outcome_in(stack::STACK, &flow) {
            Some(outcome) => {
                assert_eq!(outcome.answer.number, 0, "{order:?}");
                assert_eq!(outcome.areas.masks, answerer::states(&flow, None).masks, "{order:?}");
            }
            None => return println!("{NO_LIBRARY}"),
        }
    }
}

#[cfg(proved)]
#[test]
fn the_wrapper_sizes_its_areas() {
    use yarnuskel_host::{door, generate};
    for worked in cases::worked() {
        let states = door::states(&worked.flow.bytes()).unwrap();
        let masks: Vec<u8> = (0..states.statements()).flat_map(|i| states.masks_of(i).to_vec()).collect();
        assert_eq!(masks, worked.masks, "{}", worked.name);
    }
    for index in 0..2_000 {
        let file = generate::file_of(generate::Family::Damaged, SEED, index);
        let expected = yarnuskel_host::flow::read(&file).map(|_| ());
        assert_eq!(door::states(&file).map(|_| ()), expected, "file {index}");
        let certain = yarnuskel_host::flow::read(&file).map(|flow| answerer::certain_names(&flow, None));
        assert_eq!(door::certain(&file), certain, "file {index}");
        let found = yarnuskel_host::flow::read(&file).map(|flow| answerer::interfering_names(&flow, None));
        assert_eq!(door::interference(&file), found, "file {index}");
    }
}

/// What is loaded to be timed beside another build answers as what is linked.
#[cfg(proved)]
#[test]
fn the_loaded_library_is_the_linked_one() {
    use yarnuskel_host::beside::{self, Build};
    use yarnuskel_host::judge::Outcome;
    let build = Build::load(&beside::own()).unwrap();
    for stored in stored() {
        let mut areas = stored.lent.areas();
        assert_eq!(build.states(&stored.file, &mut areas), stored.outcome.answer);
        assert!(areas == stored.outcome.areas);
        let Outcome { mut certain_work, mut rows, mut interference_work, .. } = Outcome::before(stored.lent);
        assert_eq!(build.certain(&stored.file, &mut certain_work), Some(stored.outcome.certain));
        let interference = build.interference(&stored.file, &mut rows, &mut interference_work);
        assert_eq!(interference, Some(stored.outcome.interference));
        assert!(rows == stored.outcome.rows && interference_work == stored.outcome.interference_work);
    }
    assert!(Build::load(&root().join("README.md")).is_err());
}

/// A work area one word short, exact and longer, and rows so for each of them: changed by no refusal; after an answer
/// the work area is zero, and behind the names the rows are as they were.
#[test]
fn areas_of_the_calls_for_names() {
    let lengths = |least: usize| [0, least.saturating_sub(1), least, least + 1, 2 * least + 3];
    for case in [cases::certain(), cases::key(), cases::interference()].concat() {
        let file = case.file();
        let least = Lent::for_file(&file, 0);
        for work in lengths(least.work) {
            for rows in lengths(least.rows) {
                let lent = Lent { work, rows, ..Lent::default() };
                match judge::proved_outcome(&file, lent) {
                    Some(outcome) => assert!(outcome == judge::outcome(&file, lent, None), "{}", case.name),
                    None => return println!("{NO_LIBRARY}"),
                }
            }
        }
    }
}

// ----- Programs -----------------------------------------------------------

fn output(command: &mut Command) -> String {
    String::from_utf8(command.output().unwrap().stdout).unwrap()
}

/// An example program in Rust and in C.
struct Programs {
    rust: PathBuf,
    c: PathBuf,
}

impl Programs {
    /// The one in C is compiled here; `None` without the library.
    fn of(name: &str) -> Option<Programs> {
        if cfg!(not(proved)) {
            return None;
        }
        let built = std::env::current_exe().unwrap();
        let rust = built.parent().unwrap().with_file_name("examples").join(name);
        let c = std::env::temp_dir().join(format!("yarnuskel-{name}-{}", std::process::id()));
        let mut cc = Command::new("cc");
        cc.arg("-I").arg(root().join("include")).arg(root().join(format!("examples/{name}.c")));
        cc.arg(root().join("target/staticlib/libyarnuskel.a")).arg("-o").arg(&c);
        assert!(cc.status().unwrap().success());
        Some(Programs { rust, c })
    }

    /// Both print this text for the file.
    fn print(&self, file: &Path, text: &str) {
        for program in [&self.rust, &self.c] {
            let printed = output(Command::new(program).arg(file));
            assert_eq!(printed, text, "{}, {}", program.display(), file.display());
        }
    }
}

impl Drop for Programs {
    fn drop(&mut self) {
        std::fs::remove_file(&self.c).unwrap();
    }
}

/// What the example programs `states` print of a worked flow.
fn states_text(worked: &cases::Worked) -> String {
    let states = answerer::states(&worked.flow, None);
    let arrays = usize::from(worked.flow.arrays);
    let mut text = String::new();
    for i in 0..states.live_in.len() {
        let masks: String = states.masks[i * arrays..(i + 1) * arrays].iter().map(u8::to_string).collect();
        text += &format!("{i} {masks} {:016x} {:016x}\n", states.live_in[i], states.live_out[i]);
    }
    text + &format!("{} visits\n", states.visits)
}

#[test]
fn example_programs() {
    let Some(programs) = Programs::of("states") else { return println!("{NO_LIBRARY}") };
    for worked in cases::worked() {
        let file = root().join("examples").join(format!("{}.flow", worked.name));
        programs.print(&file, &states_text(&worked));
    }
}

fn example_flows() -> impl Iterator<Item = PathBuf> {
    let files = std::fs::read_dir(root().join("examples")).unwrap().map(|entry| entry.unwrap().path());
    files.filter(|path| path.extension().is_some_and(|e| e == "flow"))
}

/// What the example programs `certain` print of a file.
fn certain_text(file: &[u8]) -> String {
    match flow::read(file).map(|flow| answerer::certain_names(&flow, None)) {
        Ok(word) => format!("{word:016x}{}\n", text::list(text::members(word))),
        Err(refusal) => format!("refused {} at {}\n", refusal.number, refusal.place),
    }
}

#[test]
fn example_programs_of_certain_names() {
    let Some(programs) = Programs::of("certain") else { return println!("{NO_LIBRARY}") };
    for file in example_flows() {
        programs.print(&file, &certain_text(&std::fs::read(&file).unwrap()));
    }
}

/// What the example programs `interference` print of a file.
fn interference_text(file: &[u8]) -> String {
    match flow::read(file).map(|flow| answerer::interfering_names(&flow, None)) {
        Ok(found) => found.print(),
        Err(refusal) => format!("refused {} at {}\n", refusal.number, refusal.place),
    }
}

/// The flows under examples/, and the limits of names.
#[test]
fn example_programs_of_interference() {
    let Some(programs) = Programs::of("interference") else { return println!("{NO_LIBRARY}") };
    for file in example_flows() {
        programs.print(&file, &interference_text(&std::fs::read(&file).unwrap()));
    }
    let path = std::env::temp_dir().join(format!("yarnuskel-interference-{}.flow", std::process::id()));
    for case in cases::interference() {
        std::fs::write(&path, case.file()).unwrap();
        programs.print(&path, &interference_text(&case.file()));
    }
    std::fs::remove_file(path).unwrap();
}

fn run_with_input(program: &Path, input: &[u8]) -> String {
    let path = std::env::temp_dir().join(format!("yarnuskel-input-{}", std::process::id()));
    std::fs::write(&path, input).unwrap();
    let file = std::fs::File::open(&path).unwrap();
    let text = output(Command::new(program).stdin(Stdio::from(file)));
    std::fs::remove_file(path).unwrap();
    text
}

/// One input for each shape of line: worked flows, refusals, no arrays, an interrupt key, 97 statements, long
/// input.
#[test]
fn listing_program() {
    let program = root().join("target/bin/listing");
    if !program.is_file() {
        return println!("target/bin/listing is not built: its test is skipped");
    }
    let stored = stored().into_iter().take(240).map(|stored| stored.file);
    let keys = cases::key().into_iter().map(|case| case.file());
    let sized = [96, 97].map(|n| bench::call_free(n).bytes());
    let long = [16_384, 16_385].map(|length| vec![b'F'; length]);
    for (number, input) in stored.chain(keys).chain(sized).chain(long).enumerate() {
        assert_eq!(run_with_input(&program, &input), listing::listing(&input), "input {number}");
    }
}
