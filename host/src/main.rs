//! The commands of the judge.

use std::path::{Path, PathBuf};
use std::process::ExitCode;
use std::{env, fs};

use yarnuskel_host::flow::Flow;
use yarnuskel_host::generate::{self, Family};
use yarnuskel_host::judge::{self, Comparison, Lent};
use yarnuskel_host::sides::{self, NO_KEY, NO_LIBRARY, NO_ORIGINAL};
use yarnuskel_host::{answerer, bench, cases, dot, flow, listing, reading, saved, stack, store, text, worst};

const USAGE: &str = "commands:
  answer FILE|DIR              masks, live sets, certain names and interference by the original, refusals and what sure arrays change by the answerer (of a DIR, its .flow files), which also answers a flow with an interrupt key
  random KIND COUNT SEED DIR   write random files: plain, layered, limits, setup, damaged
  file SEED INDEX PATH         write one file of a comparison
  time FILE                    time the original
  compare COUNT SEED           the original beside the answerer
  compare-reader COUNT SEED    the proved reader beside the answerer
  compare-proved COUNT SEED    the proved calls beside original and answerer
  faults COUNT SEED            in how many flows each fault shows
  store                        write the stored answers and the example flows
  stored                       list the stored cases
  list FILE                    what the listing program prints
  definitions                  every definition that the promises rest on, with its file and its lines
  text FILE                    a flow file as text
  flow TEXT PATH               write the flow file that a text says
  dot FILE                     a flow file with its masks, sure arrays, certain names, names live at once and key as a picture, for Graphviz
  saved                        how many references need no test for sure arrays, in the flows of bench and the examples
  saved FILE                   the masks of a flow file without sure arrays and with them
  key FILE                     the masks of a flow file without its interrupt key and with it
  cells FILE                   the names of a flow file that interfere, and cells that they may share
  bench-reader                 the proved reader beside a plain one
  bench                        the proved calls beside the original, and beside each other
  bench-beside ARCHIVE         the proved calls by another build of the library and by this one, in turn
  stack                        the stack that the deepest nest of subroutines takes, in each order of the file
  stack-try ORDER DEPTH BYTES  whether a thread with so much stack answers a nest (Down or Up); an overflow ends the program
  worst SECONDS SEED [FAMILY]  search for the file that takes the proved call longest, so long a family
  worst-again                  time the worst files found so far (worst.txt)
  worst-file NUMBER PATH       write one of them, counted from 0";

type Outcome = Result<bool, String>;

fn root() -> PathBuf {
    Path::new(env!("CARGO_MANIFEST_DIR")).parent().unwrap().to_path_buf()
}

fn number(word: &str) -> Result<u64, String> {
    word.parse().map_err(|_| format!("`{word}` is not a number"))
}

fn load(path: &Path) -> Result<Vec<u8>, String> {
    fs::read(path).map_err(|e| format!("{}: {e}", path.display()))
}

fn save(path: &Path, bytes: &[u8]) -> Result<(), String> {
    let folder = path.parent().unwrap();
    fs::create_dir_all(folder)
        .and_then(|()| fs::write(path, bytes))
        .map_err(|e| format!("{}: {e}", path.display()))
}

/// One file's answer, in the form of the listing without its lines.
fn answer_file(path: &Path) -> Outcome {
    let file = load(path)?;
    println!("{}", path.display());
    let flow = match flow::read(&file) {
        Ok(flow) => flow,
        Err(refusal) => {
            println!("R {} {}", refusal.number, refusal.place);
            return Ok(true);
        }
    };
    let states = answerer::states(&flow, None);
    let original = sides::original(&flow);
    if original.is_none() && flow.handler.is_none() {
        println!("{NO_ORIGINAL}");
        return Ok(true);
    }
    let arrays = usize::from(flow.arrays);
    let digits = |masks: &[u8], i: usize| -> String {
        let row = &masks[i * arrays..(i + 1) * arrays];
        if arrays == 0 { "-".into() } else { row.iter().map(|m| char::from(b'0' + m)).collect() }
    };
    for i in 0..flow.statements.len() {
        let masks = digits(&states.masks, i);
        let was = original.as_ref().map(|original| digits(&original.masks, i)).filter(|was| *was != masks);
        let was = was.map_or(String::new(), |was| format!(" (the original: {was})"));
        println!("{i} {masks} {:016x} {:016x}{was}", states.live_in[i], states.live_out[i]);
    }
    println!("{}", certain_line(&flow));
    print!("{}", interference_lines(&flow));
    Ok(true)
}

/// The names that interfere and how many are live at once, by the original, with a key too.
fn interference_lines(flow: &Flow) -> String {
    let Some(found) = sides::original_interference(flow) else { return format!("{NO_ORIGINAL}\n") };
    let met = found.rows.iter().enumerate().filter(|(_, row)| **row != 0);
    let meets: String =
        met.map(|(x, &row)| format!("name {x} meets{}\n", text::list(text::members(row)))).collect();
    format!("{meets}{} live at once\n", found.most)
}

/// The certain names by the original, or by the answerer where the original may have fallen back or says
/// nothing.
fn certain_line(flow: &Flow) -> String {
    match sides::original_certain(flow) {
        None if flow.handler.is_some() => {
            let word = answerer::certain_names(flow, None);
            format!("certain {word:016x}, this and all above by the answerer: {NO_KEY}")
        }
        Some(original) if original.compared().is_none() => {
            let word = answerer::certain_names(flow, None);
            let visits = original.visits;
            format!("certain {word:016x} by the answerer: the original visits a statement {visits} times")
        }
        Some(original) => format!("certain {:016x}", original.word),
        None => NO_ORIGINAL.into(),
    }
}

/// The files of a folder whose name ends so.
fn files(folder: &Path, extension: &str) -> Result<Vec<PathBuf>, String> {
    let entries = fs::read_dir(folder).map_err(|e| format!("{}: {e}", folder.display()))?;
    let mut files: Vec<PathBuf> = entries.flatten().map(|entry| entry.path()).collect();
    files.retain(|path| path.is_file() && path.extension().is_some_and(|e| e == extension));
    files.sort();
    Ok(files)
}

fn answer(path: &Path) -> Outcome {
    if !path.is_dir() {
        return answer_file(path);
    }
    for file in files(path, "flow")? {
        answer_file(&file)?;
    }
    Ok(true)
}

fn random(kind: &str, count: u64, seed: u64, folder: &Path) -> Outcome {
    let family = Family::named(kind).ok_or_else(|| format!("`{kind}` is no kind of flow"))?;
    for index in 0..count {
        let file = generate::file_of(family, seed, index);
        save(&folder.join(format!("{kind}-{seed}-{index}.flow")), &file)?;
    }
    Ok(true)
}

/// The flow of a file that is fit.
fn fit(path: &Path) -> Result<Flow, String> {
    flow::read(&load(path)?).map_err(|r| format!("refused {} at {}", r.number, r.place))
}

fn picture(path: &Path) -> Outcome {
    let flow = fit(path)?;
    let Some(masks) = sides::proved_masks(&flow.bytes()) else {
        println!("{NO_LIBRARY}");
        return Ok(true);
    };
    let masks = masks.map_err(|r| format!("refused {} at {}", r.number, r.place))?;
    print!("{}", dot::print(&flow, &masks));
    Ok(true)
}

/// The flows of the benchmarks and those under examples/.
fn known_flows() -> Result<Vec<(String, Flow)>, String> {
    let mut flows: Vec<(String, Flow)> =
        bench::flows().into_iter().map(|(name, flow)| (name.into(), flow)).collect();
    for path in files(&root().join("examples"), "flow")? {
        // One of them is an example of a refusal.
        if let Ok(flow) = flow::read(&load(&path)?) {
            flows.push((path.file_stem().unwrap().to_string_lossy().into(), flow));
        }
    }
    Ok(flows)
}

fn write_flow(from: &Path, to: &Path) -> Outcome {
    let text = fs::read_to_string(from).map_err(|e| format!("{}: {e}", from.display()))?;
    let flow = text::read(&text).map_err(|e| format!("{}, {e}", from.display()))?;
    save(to, &flow.bytes()).map(|()| true)
}

fn time(path: &Path) -> Outcome {
    let flow = fit(path)?;
    let Some([mut masks, mut live]) = sides::original_runs(&flow) else {
        println!("{}", if flow.handler.is_some() { NO_KEY } else { NO_ORIGINAL });
        return Ok(true);
    };
    let [masks, live] = bench::medians(5, [&mut masks, &mut live]);
    println!("array_states {masks:.2?}, live solve {live:.2?}, medians of 5 runs");
    Ok(true)
}

type Compare = fn(u64, u64) -> Option<Comparison>;

fn compare(count: u64, seed: u64, with: Compare, absent: &str) -> Outcome {
    if cfg!(not(original)) {
        println!("{NO_ORIGINAL}");
    }
    let Some(comparison) = with(count, seed) else {
        println!("{absent}");
        return Ok(true);
    };
    comparison.print(count, seed);
    Ok(comparison.differences.is_empty())
}

fn faults(count: u64, seed: u64) -> Outcome {
    println!("seed {seed}");
    Ok(judge::print_fault_table(&judge::fault_table(count, seed), count))
}

fn write_store() -> Outcome {
    if cfg!(not(original)) {
        println!("{NO_ORIGINAL}");
        return Ok(false);
    }
    let cases = store::cases();
    let bytes = store::bytes(&cases)?;
    save(&root().join(store::PLACE), &bytes)?;
    save(&root().join(store::PRINTED), store::printed(cases.len()).as_bytes())?;
    let examples = root().join("examples");
    save(&examples.join("refused.flow"), &cases::refused())?;
    for path in files(&examples, "txt")? {
        write_flow(&path, &path.with_extension("flow"))?;
    }
    println!("{} cases, {} bytes", cases.len(), bytes.len());
    Ok(true)
}

fn list_store() -> Outcome {
    for (number, case) in store::cases().iter().enumerate() {
        let right = store::answer(case)?;
        let (answer, certain) = (right.outcome.answer, right.outcome.certain);
        let interference = right.outcome.interference;
        let Lent { masks, live_in, live_out, work, rows } = case.lent;
        print!("{number}: {} | areas {masks} {live_in} {live_out} {work} {rows} | ", case.name);
        print!("{} {} {} | ", answer.number, answer.place, answer.found);
        print!("{} {} {:016x} | ", certain.number, certain.place, certain.found);
        println!("{} {} {}", interference.number, interference.place, interference.found);
    }
    Ok(true)
}

fn run(words: &[&str]) -> Outcome {
    match words {
        ["answer", path] => answer(Path::new(path)),
        ["random", kind, count, seed, folder] => {
            random(kind, number(count)?, number(seed)?, Path::new(folder))
        }
        ["file", seed, index, path] => {
            save(Path::new(path), &generate::file(number(seed)?, number(index)?)).map(|()| true)
        }
        ["time", path] => time(Path::new(path)),
        ["compare", count, seed] => {
            compare(number(count)?, number(seed)?, |c, s| Some(judge::compare(c, s)), "")
        }
        ["compare-reader", count, seed] => {
            compare(number(count)?, number(seed)?, judge::compare_reader, NO_LIBRARY)
        }
        ["compare-proved", count, seed] => {
            compare(number(count)?, number(seed)?, judge::compare_proved, NO_LIBRARY)
        }
        ["faults", count, seed] => faults(number(count)?, number(seed)?),
        ["store"] => write_store(),
        ["stored"] => list_store(),
        ["list", path] => {
            print!("{}", listing::listing(&load(Path::new(path))?));
            Ok(true)
        }
        ["text", path] => {
            print!("{}", text::print(&fit(Path::new(path))?));
            Ok(true)
        }
        ["dot", path] => picture(Path::new(path)),
        ["saved"] => {
            print!("{}", saved::table(&known_flows()?));
            Ok(true)
        }
        ["saved", path] => {
            print!("{}", saved::masks(&fit(Path::new(path))?));
            Ok(true)
        }
        ["key", path] => {
            print!("{}", saved::key_masks(&fit(Path::new(path))?));
            Ok(true)
        }
        ["cells", path] => {
            print!("{}", answerer::interfering_names(&fit(Path::new(path))?, None).print());
            Ok(true)
        }
        ["definitions"] => {
            print!("{}", reading::Library::load(&root()).believed(&root()));
            Ok(true)
        }
        ["flow", from, path] => write_flow(Path::new(from), Path::new(path)),
        ["bench-reader"] => Ok(bench::readers()),
        ["bench"] => Ok({
            bench::whole_call() & bench::key_call() & bench::certain_call() & bench::interference_call()
        }),
        ["bench-beside", archive] => match sides::beside(Path::new(archive)) {
            Some(measured) => measured.map(|()| true),
            None => {
                println!("{NO_LIBRARY}");
                Ok(true)
            }
        },
        ["stack"] => stack::measure(),
        ["stack-try", order, depth, bytes] => stack::tried(order, number(depth)?, number(bytes)?),
        ["worst", seconds, seed] => worst::search(number(seconds)?, number(seed)?, None),
        ["worst", seconds, seed, family] => worst::search(number(seconds)?, number(seed)?, Some(family)),
        ["worst-again"] => worst::again(),
        ["worst-file", which, path] => {
            let file = worst::stored_file(number(which)? as usize).ok_or("there is no such recipe")?;
            save(Path::new(path), &file).map(|()| true)
        }
        _ => Err(USAGE.into()),
    }
}

fn main() -> ExitCode {
    let words: Vec<String> = env::args().skip(1).collect();
    let words: Vec<&str> = words.iter().map(String::as_str).collect();
    match run(&words) {
        Ok(true) => ExitCode::SUCCESS,
        Ok(false) => ExitCode::FAILURE,
        Err(message) => {
            eprintln!("{message}");
            ExitCode::FAILURE
        }
    }
}
