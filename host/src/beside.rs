//! Another build of the library beside this one, in one process and in turn. Two archives with the same doors
//! cannot be linked into one program, so each is made a shared library and loaded, both in the same way.

use std::ffi::{CStr, CString, c_char, c_int, c_void};
use std::hint::black_box;
use std::os::unix::ffi::OsStrExt;
use std::path::{Path, PathBuf};
use std::process::Command;
use std::sync::atomic::{AtomicU32, Ordering};
use std::time::Duration;
use std::{env, fs, mem, process};

use crate::answerer::{Answer, Areas};
use crate::bench;
use crate::door::{self, CertainDoor, InterferenceDoor, StatesDoor};
use crate::flow::Flow;
use crate::judge::Lent;

unsafe extern "C" {
    fn dlopen(path: *const c_char, flags: c_int) -> *mut c_void;
    fn dlsym(library: *mut c_void, name: *const c_char) -> *mut c_void;
}

/// The value of RTLD_NOW; names stay the library's own.
const NOW: c_int = 2;

/// The archive that this package links.
pub fn own() -> PathBuf {
    Path::new(env!("CARGO_MANIFEST_DIR")).join("../target/staticlib/libyarnuskel.a")
}

/// A library that was loaded. It stays so until the program ends. Not every build has all doors.
pub struct Build {
    states: StatesDoor,
    certain: Option<CertainDoor>,
    interference: Option<InterferenceDoor>,
}

impl Build {
    /// Loads an archive that `rt lib` made of crates/yarnuskel.
    pub fn load(path: &Path) -> Result<Build, String> {
        static LOADS: AtomicU32 = AtomicU32::new(0);
        let name = path.display();
        let load = LOADS.fetch_add(1, Ordering::Relaxed);
        let shared = env::temp_dir().join(format!("yarnuskel-{}-{load}.so", process::id()));
        let made = Command::new("cc")
            .args(["-shared", "-o"])
            .arg(&shared)
            .args(["-Wl,--whole-archive".as_ref(), path.as_os_str(), "-Wl,--no-whole-archive".as_ref()])
            .output()
            .map_err(|e| format!("cc: {e}"))?;
        if !made.status.success() {
            return Err(format!("{name}: {}", String::from_utf8_lossy(&made.stderr)));
        }
        let file = CString::new(shared.as_os_str().as_bytes()).map_err(|e| format!("{name}: {e}"))?;
        // The file is there, and the library has no code of its own that runs when it is loaded.
        let library = unsafe { dlopen(file.as_ptr(), NOW) };
        let _ = fs::remove_file(&shared);
        if library.is_null() {
            return Err(format!("{name}: it cannot be loaded"));
        }
        let door =
            |name: &CStr| Some(unsafe { dlsym(library, name.as_ptr()) }).filter(|door| !door.is_null());
        let states =
            door(c"yarnuskel_states").ok_or_else(|| format!("{name}: it has no yarnuskel_states"))?;
        // A build that has one of these doors has it with these parameters.
        Ok(unsafe {
            Build {
                states: mem::transmute::<*mut c_void, StatesDoor>(states),
                certain: door(c"yarnuskel_certain")
                    .map(|door| mem::transmute::<*mut c_void, CertainDoor>(door)),
                interference: door(c"yarnuskel_interference")
                    .map(|door| mem::transmute::<*mut c_void, InterferenceDoor>(door)),
            }
        })
    }

    pub fn states(&self, file: &[u8], areas: &mut Areas) -> Answer {
        door::states_by(self.states, file, areas)
    }

    /// `None` where the build has no such door.
    pub fn certain(&self, file: &[u8], work: &mut [u64]) -> Option<Answer> {
        Some(door::certain_by(self.certain?, file, work))
    }

    /// `None` where the build has no such door.
    pub fn interference(&self, file: &[u8], rows: &mut [u64], work: &mut [u64]) -> Option<Answer> {
        Some(door::interference_by(self.interference?, file, rows, work))
    }
}

/// The times of both on one flow, shortest first, over areas as `lend` makes them; `None` where one of them has no such
/// door. Both must answer the same.
fn times<A: PartialEq>(
    name: &str,
    flow: &Flow,
    builds: [&Build; 2],
    lend: impl Fn(Lent) -> A,
    call: impl Fn(&Build, &[u8], &mut A) -> Option<Answer>,
) -> Option<[Vec<Duration>; 2]> {
    let file = flow.bytes();
    let mut lent = [(); 2].map(|()| lend(Lent::for_file(&file, 0)));
    let [first, second] = &mut lent;
    let answers = [call(builds[0], &file, first)?, call(builds[1], &file, second)?];
    assert!(answers[0] == answers[1] && first == second, "{name}: the two answer differently");
    // Reading the clock takes as long as a call on a small flow, so there a hundred calls are timed at once.
    let calls = if flow.statements.len() > 500 { 1 } else { 100 };
    let turn = |build: &Build, areas: &mut A| {
        for _ in 0..calls {
            black_box(call(build, black_box(&file), areas));
        }
    };
    let sides: [&mut dyn FnMut(); 2] = [&mut || turn(builds[0], first), &mut || turn(builds[1], second)];
    Some(bench::turns(301, sides).map(|all| all.into_iter().map(|time| time / calls).collect()))
}

/// A table of one door, on every flow of the benchmarks.
fn table<A: PartialEq>(
    door: &str,
    builds: [&Build; 2],
    lend: impl Fn(Lent) -> A,
    call: impl Fn(&Build, &[u8], &mut A) -> Option<Answer>,
) {
    println!(
        "\n{door:36} {:>12} {:>12} {:>7} {:>12} {:>12} {:>7}",
        "shortest", "this one", "times", "median", "this one", "times"
    );
    let keyed = bench::key_flows().into_iter().map(|(name, flow)| (format!("{name}, a key"), flow));
    let flows = bench::flows().into_iter().map(|(name, flow)| (name.to_string(), flow)).chain(keyed);
    for (name, flow) in flows {
        let Some(all) = times(&name, &flow, builds, &lend, &call) else {
            println!("one of the two has no such door");
            return;
        };
        print!("{name:36}");
        for at in [0, all[0].len() / 2] {
            let [before, now] = [all[0][at], all[1][at]];
            print!(" {before:>12.2?} {now:>12.2?} {:>7.3}", now.as_secs_f64() / before.as_secs_f64());
        }
        println!();
    }
}

/// The calls by another build and by this one, in turn.
pub fn measure(other: &Path) -> Result<(), String> {
    let builds = [&Build::load(other)?, &Build::load(&own())?];
    let same = fs::read(other).ok() == fs::read(own()).ok();
    println!("the two archives are {}", if same { "the same, byte by byte" } else { "not the same" });
    let words = |length: usize| vec![0; length];
    table("yarnuskel_states", builds, Lent::areas, |build, file, areas| Some(build.states(file, areas)));
    table(
        "yarnuskel_certain",
        builds,
        |lent| words(lent.work),
        |build, file, work| build.certain(file, work),
    );
    table(
        "yarnuskel_interference",
        builds,
        |lent| [words(lent.rows), words(lent.work)],
        |build, file, [rows, work]| build.interference(file, rows, work),
    );
    Ok(())
}
