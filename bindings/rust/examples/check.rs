//! Says of each file whether it is a valid WebAssembly module, by lines as those of `wasm-check`; the file `-` is standard input. With
//! `--vectors` operators on vectors are judged like all others, and after `--entries` it says what each imports and exports. Ends with 0 if all
//! are valid, 1 if some file is not, and 2 if there is no verdict on some file, or no file. At a terminal it says below a refusal what may help.

use durskeyl::{External, Features, Module, Settings, Shown};
use std::ffi::OsStr;
use std::io::{self, IsTerminal, Read, Write};
use std::process::ExitCode;

const USAGE: &str = "usage: check [--vectors] [--entries] FILE...";

fn main() -> ExitCode {
    let mut words: Vec<_> = std::env::args_os().skip(1).collect();
    let mut settings = Settings::new();
    if words.first().is_some_and(|it| it == "--help" || it == "--version") {
        let is_help = words[0] == "--help";
        let written = if is_help { writeln!(io::stdout(), "{USAGE}") } else { writeln!(io::stdout(), "durskeyl {}", durskeyl::version_text()) };
        return ExitCode::from(if written.is_ok() { 0 } else { 2 });
    }
    if words.first().is_some_and(|it| it == "--vectors") {
        words.remove(0);
        settings = Settings::new().with_features(Features::default() | Features::VECTORS);
    }
    let lists = words.first().is_some_and(|it| it == "--entries");
    let names = &words[usize::from(lists)..];
    if names.is_empty() {
        complain(USAGE);
        return ExitCode::from(2);
    }
    if is_lost(1) {
        complain("check: cannot write: standard output is closed");
        return ExitCode::from(2);
    }
    let out = &mut io::stdout().lock();
    let mut status = 0;
    for name in names {
        match told(out, name, &settings, lists) {
            Ok(found) => status = status.max(found),
            Err(error) => {
                complain(&format!("check: cannot write: {error}"));
                return ExitCode::from(2);
            }
        }
    }
    ExitCode::from(status)
}

// Writes the lines of a file, and gives its status.
fn told(out: &mut impl Write, name: &OsStr, settings: &Settings, lists: bool) -> io::Result<u8> {
    let shown = name.to_string_lossy();
    let no_verdict = |why: &dyn std::fmt::Display| {
        complain(&format!("check: {}: {why}", Shown(&shown)));
        Ok(2)
    };
    let bytes = match read(name) {
        Ok(bytes) => bytes,
        Err(error) => return no_verdict(&error),
    };
    match settings.validate(&bytes) {
        Ok(module) if lists => list(out, module).and(Ok(0)),
        Ok(_) => writeln!(out, "{}: valid", Shown(&shown)).and(Ok(0)),
        Err(error) if error.is_verdict() => {
            writeln!(out, "{}: invalid at {:#x}: {}", Shown(&shown), error.offset(), Shown(error.message()))?;
            if error.hint().is_some() && io::stderr().is_terminal() {
                complain("  --vectors judges operators on vectors");
            }
            Ok(1)
        }
        Err(error) => no_verdict(&error),
    }
}

fn read(name: &OsStr) -> io::Result<Vec<u8>> {
    if name.to_str().is_none() {
        return Err(io::Error::new(io::ErrorKind::InvalidInput, "a name has to be UTF-8"));
    }
    if name != "-" {
        return std::fs::read(name);
    }
    if is_lost(0) {
        return Err(io::Error::new(io::ErrorKind::NotFound, "standard input is closed"));
    }
    let mut bytes = Vec::new();
    io::stdin().lock().read_to_end(&mut bytes)?;
    Ok(bytes)
}

// A line on standard error, which may be closed.
fn complain(line: &str) {
    let _ = writeln!(io::stderr(), "{line}");
}

// Whether this standard stream was closed. Rust's runtime opens /dev/null in its place, to read and write, so that lines would be lost, and an input
// would be empty, without a word.
fn is_lost(stream: u32) -> bool {
    let to = std::fs::read_link(format!("/proc/self/fd/{stream}"));
    let how = std::fs::read_to_string(format!("/proc/self/fdinfo/{stream}")).unwrap_or_default();
    let flags = how.lines().find_map(|it| it.strip_prefix("flags:")).map_or("", str::trim);
    to.is_ok_and(|it| it == OsStr::new("/dev/null")) && flags.ends_with('2')
}

// The lines of tests/library/entries.c.
fn list(out: &mut impl Write, module: Module<'_>) -> io::Result<()> {
    for it in module.imports() {
        writeln!(out, "import {} {} {} {}", hex(it.module), hex(it.name), number(it.kind), it.index)?;
    }
    for it in module.exports() {
        writeln!(out, "export {} {} {}", hex(it.name), number(it.kind), it.index)?;
    }
    Ok(())
}

fn hex(text: &str) -> String {
    if text.is_empty() {
        return "-".to_string();
    }
    text.bytes().map(|byte| format!("{byte:02x}")).collect()
}

fn number(kind: External) -> u32 {
    match kind {
        External::Function => 0,
        External::Table => 1,
        External::Memory => 2,
        External::Global => 3,
        External::Tag => 4,
        External::Unknown(kind) => kind,
        _ => u32::MAX,
    }
}
