//! Judges modules by the crate `wasmparser`, and answers as wasm-check does:
//!
//! `judge FILE` says by its status whether the module is valid: 0 if it is, else 1.
//! `judge --json [--features WORDS] FILE...` writes an object for each file, as `wasm-check --json --keep-going` does. WORDS are those of
//! wasm-check; a set means its features of the 28 that wasm-check knows.
//! `judge --in-memory RUNS FILE` judges the file so many times from bytes in memory, and prints the least processor time in milliseconds, or
//! `refused`, as bench/in_memory.c does.
//! `judge --names` prints the features that both know.

use std::{env, fs, process::ExitCode};
use wasmparser::{Validator, WasmFeatures};

/// The names of the features, as wasm-check knows them. A feature that this release of the crate does not have does nothing.
const NAMES: [&str; 28] = [
    "mutable-global", "saturating-float-to-int", "sign-extension", "reference-types", "multi-value", "bulk-memory", "simd", "relaxed-simd",
    "threads", "shared-everything-threads", "tail-call", "floats", "multi-memory", "exceptions", "memory64", "extended-const",
    "component-model", "function-references", "memory-control", "gc", "custom-page-sizes", "legacy-exceptions", "gc-types",
    "stack-switching", "wide-arithmetic", "call-indirect-overlong", "bulk-memory-opt", "custom-descriptors",
];

fn feature(word: &str) -> WasmFeatures {
    WasmFeatures::from_name(&word.replace('-', "_").to_uppercase()).unwrap_or(WasmFeatures::empty())
}

fn known() -> WasmFeatures {
    NAMES.iter().fold(WasmFeatures::empty(), |all, word| all | feature(word))
}

/// The features of words between commas, from left to right from the default set on.
fn features(words: &str) -> Option<WasmFeatures> {
    let mut set = WasmFeatures::default() & known();
    for word in words.split(',').filter(|word| !word.is_empty()) {
        set = match word {
            "default" => WasmFeatures::default() & known(),
            "all" => known(),
            "mvp" => WasmFeatures::MVP,
            "wasm1" => WasmFeatures::WASM1,
            "wasm2" => WasmFeatures::WASM2,
            "wasm3" => WasmFeatures::WASM3,
            "lime1" => WasmFeatures::LIME1,
            _ if NAMES.contains(&word) => set | feature(word),
            _ if word.strip_prefix("no-").is_some_and(|it| NAMES.contains(&it)) => set & !feature(&word[3..]),
            _ => return None,
        };
    }
    Some(set)
}

/// A text as a string of JSON.
fn quoted(text: &str) -> String {
    let mut out = String::from("\"");
    for c in text.chars() {
        match c {
            '"' => out.push_str("\\\""),
            '\\' => out.push_str("\\\\"),
            c if (c as u32) < 32 => out.push_str(&format!("\\u{:04x}", c as u32)),
            c => out.push(c),
        }
    }
    out + "\""
}

fn line(set: WasmFeatures, path: &str) -> Option<String> {
    let bytes = fs::read(path).ok()?;
    let file = quoted(path);
    Some(match Validator::new_with_features(set).validate_all(&bytes) {
        Ok(_) => format!("{{\"file\": {file}, \"valid\": true}}"),
        Err(fault) => {
            format!("{{\"file\": {file}, \"valid\": false, \"offset\": {}, \"message\": {}}}", fault.offset(), quoted(fault.message()))
        }
    })
}

#[repr(C)]
struct Timespec {
    seconds: i64,
    nanoseconds: i64,
}

extern "C" {
    fn clock_gettime(clock: i32, time: *mut Timespec) -> i32;
}

/// The milliseconds of processor that this process has taken.
fn milliseconds() -> f64 {
    const CLOCK_PROCESS_CPUTIME_ID: i32 = 2;
    let mut now = Timespec { seconds: 0, nanoseconds: 0 };
    // SAFETY: the clock writes the two numbers of `now`, which outlives the call.
    unsafe { clock_gettime(CLOCK_PROCESS_CPUTIME_ID, &mut now) };
    now.seconds as f64 * 1e3 + now.nanoseconds as f64 / 1e6
}

fn in_memory(runs: u32, bytes: &[u8]) -> Option<f64> {
    let mut least = f64::INFINITY;
    for _ in 0..runs {
        let start = milliseconds();
        Validator::new().validate_all(bytes).ok()?;
        least = least.min(milliseconds() - start);
    }
    Some(least)
}

fn main() -> ExitCode {
    let words: Vec<String> = env::args().skip(1).collect();
    let words: Vec<&str> = words.iter().map(String::as_str).collect();
    let (set, files) = match words[..] {
        ["--names"] => {
            NAMES.iter().filter(|word| !feature(word).is_empty()).for_each(|word| println!("{word}"));
            return ExitCode::SUCCESS;
        }
        ["--in-memory", runs, file] => {
            let (Ok(runs), Ok(bytes)) = (runs.parse(), fs::read(file)) else { return ExitCode::from(2) };
            println!("{}", in_memory(runs, &bytes).map_or("refused".into(), |least| format!("{least:.3}")));
            return ExitCode::SUCCESS;
        }
        ["--json", "--features", set, ref files @ ..] => (set, files),
        ["--json", ref files @ ..] => ("", files),
        [file] => {
            let Ok(bytes) = fs::read(file) else { return ExitCode::from(2) };
            return ExitCode::from(Validator::new().validate_all(&bytes).is_err() as u8);
        }
        _ => {
            eprintln!("usage: judge FILE | --json [--features WORDS] FILE... | --in-memory RUNS FILE | --names");
            return ExitCode::from(2);
        }
    };
    let Some(set) = features(set) else { return ExitCode::from(2) };
    files.iter().filter_map(|file| line(set, file)).for_each(|line| println!("{line}"));
    ExitCode::SUCCESS
}
