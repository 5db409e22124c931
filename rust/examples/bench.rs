//! Measures one clearing of the largest markets, the star and the chain of `examples/`, with points and
//! with spans: its time, the stack it uses, and how much longer spans take than points. Where the machine
//! has other work, the least times vary less than the medians.
//! `cargo run --release --example bench`, on x86-64.
//!
//! Another version of the library is raced in the same run, each file cleared by both in turn, where its
//! archive as a shared object is given: `cargo run --release --example bench -- OTHER.so`, made by
//! `cc -shared -o OTHER.so -Wl,--whole-archive libentry.a -Wl,--no-whole-archive`.

#[path = "../tests/painted.rs"]
mod painted;

use clearing::{clear, clear_file, ANSWER_LIMIT};
use painted::stack_used;
use std::env;
use std::ffi::{c_char, c_int, c_void, CString};
use std::fmt::Display;
use std::fs;
use std::hint::black_box;
use std::mem;
use std::path::Path;
use std::time::{Duration, Instant};

const RUNS: usize = 501;

/// A version of the library: it clears a file into an area, and gives the number of bytes written.
type Version = Box<dyn Fn(&[u8], &mut [u8]) -> Option<usize>>;

/// What the clearings of one file took.
struct Took {
    median: Duration,
    least: Duration,
}

fn main() -> Result<(), String> {
    let mut versions: Vec<Version> = vec![Box::new(|file, area| clear(file, area).ok())];
    let mut given = env::args_os().skip(1);
    if let Some(object) = given.next() {
        versions.push(other_version(Path::new(&object))?);
    }
    if given.next().is_some() {
        return Err("at most one other version is raced".to_string());
    }
    for shape in ["star", "chain"] {
        let points = example(shape, &versions)?;
        let spans = example(&format!("{shape}_spans"), &versions)?;
        let [for_points, for_spans] = measured([&points, &spans], &versions);
        println!("{shape} of 32 members, capacities 40, 64 offers each:");
        print_figures(&points, &versions, &for_points);
        println!("{shape} of 32 members, capacities 40, 64 spans each:");
        print_figures(&spans, &versions, &for_spans);
        print_ratio(
            &for_spans[0],
            &for_points[0],
            &format!("the {shape} of points"),
        );
    }
    Ok(())
}

/// The version in a shared object.
fn other_version(object: &Path) -> Result<Version, String> {
    type Entry = unsafe extern "C" fn(*const u8, usize, *mut u8, usize) -> u64;
    extern "C" {
        fn dlopen(path: *const c_char, mode: c_int) -> *mut c_void;
        fn dlsym(object: *mut c_void, name: *const c_char) -> *mut c_void;
    }
    const RTLD_NOW: c_int = 2;
    let fault = |words: &dyn Display| format!("{}: {words}", object.display());
    let found = fs::canonicalize(object).map_err(|error| fault(&error))?;
    let path =
        CString::new(found.into_os_string().into_encoded_bytes()).map_err(|error| fault(&error))?;
    // SAFETY: the path ends in a zero and outlives the call.
    let loaded = unsafe { dlopen(path.as_ptr(), RTLD_NOW) };
    if loaded.is_null() {
        return Err(fault(&"cannot be loaded as a shared object"));
    }
    // SAFETY: the name ends in a zero, and the object is loaded.
    let entry = unsafe { dlsym(loaded, c"clearing_clear".as_ptr()) };
    if entry.is_null() {
        return Err(fault(&"has no entry clearing_clear"));
    }
    // SAFETY: the entry has this type in every version, and its object is never unloaded.
    let entry = unsafe { mem::transmute::<*mut c_void, Entry>(entry) };
    Ok(Box::new(move |file, area| {
        // SAFETY: as in the library's own call of its entry.
        let code = unsafe { entry(file.as_ptr(), file.len(), area.as_mut_ptr(), area.len()) };
        (code < 65_536).then_some(code as usize)
    }))
}

/// The bytes of an example file, which every version clears with the same answer.
fn example(name: &str, versions: &[Version]) -> Result<Vec<u8>, String> {
    let folder = Path::new(env!("CARGO_MANIFEST_DIR")).join("../examples");
    let path = folder.join(name).with_extension("market");
    let file = fs::read(&path).map_err(|error| format!("{}: {error}", path.display()))?;
    let mut answer = [0; ANSWER_LIMIT];
    let written = clear(&file, &mut answer).map_err(|refusal| format!("{name}: {refusal}"))?;
    for version in versions {
        let mut area = [0; ANSWER_LIMIT];
        if version(&file, &mut area) != Some(written) || area != answer {
            return Err(format!(
                "{name}: the other version refuses it or has another answer"
            ));
        }
    }
    Ok(file)
}

/// What each of two files takes each version: all in turn, and the other way round every second time.
fn measured(files: [&[u8]; 2], versions: &[Version]) -> [Vec<Took>; 2] {
    let mut times = files.map(|_| vec![Vec::new(); versions.len()]);
    let mut order: Vec<(usize, usize)> = (0..files.len())
        .flat_map(|file| (0..versions.len()).map(move |version| (file, version)))
        .collect();
    for _ in 0..RUNS {
        for &(file, version) in &order {
            times[file][version].push(time(&versions[version], files[file]));
        }
        order.reverse();
    }
    times.map(|by_version| by_version.into_iter().map(took).collect())
}

fn time(version: &Version, file: &[u8]) -> Duration {
    let mut area = [0; ANSWER_LIMIT];
    let start = Instant::now();
    let _ = black_box(version(black_box(file), &mut area));
    start.elapsed()
}

fn took(mut times: Vec<Duration>) -> Took {
    times.sort();
    Took {
        median: times[RUNS / 2],
        least: times[0],
    }
}

fn print_figures(file: &[u8], versions: &[Version], took: &[Took]) {
    let mut area = [0; ANSWER_LIMIT];
    let stack = stack_used(&mut || {
        let _ = black_box(clear(file, &mut area));
    });
    let typed = stack_used(&mut || {
        black_box(&clear_file(file));
    });
    print_times(&took[0]);
    println!("  {stack} bytes of stack, {typed} with a typed answer");
    if let ([_, other], [this_took, other_took]) = (versions, took) {
        let stack = stack_used(&mut || {
            let _ = black_box(other(file, &mut area));
        });
        println!("  the other version:");
        print_times(other_took);
        println!("  {stack} bytes of stack");
        print_ratio(this_took, other_took, "the other version");
    }
}

fn print_times(took: &Took) {
    let (median, least) = (took.median.as_micros(), took.least.as_micros());
    println!("  {median} microseconds, median of {RUNS} clearings; {least} at the least");
}

fn print_ratio(took: &Took, to: &Took, what: &str) {
    let by_median = took.median.as_secs_f64() / to.median.as_secs_f64();
    let by_least = took.least.as_secs_f64() / to.least.as_secs_f64();
    println!("  {by_median:.2} times {what} by the medians, {by_least:.2} by the least");
}
