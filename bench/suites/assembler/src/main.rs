//! Assembles a script of the standard's tests: `assembler FILE.wast -o OUT.json` writes what wabt's `wast2json` writes, a list of the
//! script's commands and a file for each module.
//!
//! Each command is parsed by itself, so one in unknown syntax costs only itself: it is listed with the type `not-assembled`.

use std::{env, fs, path::Path, process::ExitCode};
use wast::parser::{self, ParseBuffer};
use wast::{QuoteWat, Wast, WastDirective, WastExecute, Wat};

/// The words that a command of a script begins with. A text that begins otherwise has the fields of one module.
const COMMANDS: [&str; 7] = ["(module", "(assert_", "(register", "(invoke", "(get", "(thread", "(input"];

/// The place after the comment, the string or the character that begins at `i`.
fn after_token(bytes: &[u8], i: usize) -> usize {
    let (mut at, mut nested) = (i, 0);
    match &bytes[i..(i + 2).min(bytes.len())] {
        b";;" => bytes[i..].iter().position(|&c| c == b'\n').map_or(bytes.len(), |n| i + n),
        b"(;" => loop {
            match &bytes[at..(at + 2).min(bytes.len())] {
                b"(;" => (nested, at) = (nested + 1, at + 2),
                b";)" => (nested, at) = (nested - 1, at + 2),
                [] => return at,
                _ => at += 1,
            }
            if nested == 0 {
                return at;
            }
        },
        [b'"', ..] => {
            at += 1;
            while at < bytes.len() && bytes[at] != b'"' {
                at += if bytes[at] == b'\\' { 2 } else { 1 };
            }
            (at + 1).min(bytes.len())
        }
        _ => i + 1,
    }
}

/// The expressions at the top of a script, each with the number of its first line.
fn commands(text: &str) -> Vec<(usize, &str)> {
    let bytes = text.as_bytes();
    let (mut found, mut line, mut first_line) = (Vec::new(), 1, 1);
    let (mut at, mut depth, mut start) = (0, 0, 0);
    while at < bytes.len() {
        let next = after_token(bytes, at);
        match &bytes[at..next] {
            b"(" => {
                if depth == 0 {
                    (start, first_line) = (at, line);
                }
                depth += 1;
            }
            b")" if depth > 0 => {
                depth -= 1;
                if depth == 0 {
                    found.push((first_line, &text[start..next]));
                }
            }
            _ => {}
        }
        line += bytes[at..next].iter().filter(|&&c| c == b'\n').count();
        at = next;
    }
    match found.first() {
        Some(&(line, first)) if !COMMANDS.iter().any(|word| first.starts_with(word)) => vec![(line, text)],
        _ => found,
    }
}

/// A text as a string of JSON.
fn quoted(text: &str) -> String {
    let mut out = String::from("\"");
    for c in text.chars() {
        match c {
            '"' => out.push_str("\\\""),
            '\\' => out.push_str("\\\\"),
            c if (c as u32) < 32 => out.push_str(&format!("\\u{:04x}", c as u32)),
            c => out.push(c),
        }
    }
    out + "\""
}

/// A command that has a module: its kind, the module's bytes (none if it is given in the text format), the message that it expects.
struct Command {
    kind: &'static str,
    bytes: Option<Vec<u8>>,
    message: String,
}

fn encoded(mut module: QuoteWat) -> Result<Option<Vec<u8>>, wast::Error> {
    match module {
        QuoteWat::Wat(_) => module.encode().map(Some),
        _ => Ok(None),
    }
}

/// The one command of a text, or nothing if it has no module.
fn command(text: &str) -> Result<Option<Command>, wast::Error> {
    let buffer = ParseBuffer::new(text)?;
    let mut script = parser::parse::<Wast>(&buffer)?;
    let plain = |mut module: Wat| module.encode().map(Some);
    let (kind, bytes, message) = match script.directives.remove(0) {
        WastDirective::Wat(module @ QuoteWat::Wat(_)) => ("module", encoded(module)?, ""),
        WastDirective::AssertMalformed { module, message, .. } => ("assert_malformed", encoded(module)?, message),
        WastDirective::AssertInvalid { module, message, .. } => ("assert_invalid", encoded(module)?, message),
        WastDirective::AssertUnlinkable { module, message, .. } => ("assert_unlinkable", plain(module)?, message),
        WastDirective::AssertTrap { exec: WastExecute::Wat(module), message, .. } => ("assert_uninstantiable", plain(module)?, message),
        _ => return Ok(None),
    };
    Ok(Some(Command { kind, bytes, message: message.into() }))
}

/// Writes the module of a command, and answers the command's row.
fn row(command: Command, line: usize, stem: &str) -> std::io::Result<String> {
    let form = if command.bytes.is_some() { "binary" } else { "text" };
    let file = format!("{stem}.{line}.{}", if form == "binary" { "wasm" } else { "wat" });
    fs::write(&file, command.bytes.unwrap_or_default())?;
    let name = Path::new(&file).file_name().unwrap_or_default().to_string_lossy();
    let (kind, name, message) = (command.kind, quoted(&name), quoted(&command.message));
    Ok(format!(r#"{{"type": "{kind}", "line": {line}, "filename": {name}, "text": {message}, "module_type": "{form}"}}"#))
}

fn assemble(source: &str, target: &str) -> std::io::Result<()> {
    let text = fs::read_to_string(source)?;
    let (stem, mut rows) = (target.trim_end_matches(".json"), Vec::new());
    for (number, (line, part)) in commands(&text).into_iter().enumerate() {
        match command(&part.replacen("(module definition", "(module", 1)) {
            Ok(Some(found)) => rows.push(row(found, line, &format!("{stem}.{number}"))?),
            Err(why) if !part.starts_with("(assert_") || part.contains("(module") => {
                rows.push(format!(r#"{{"type": "not-assembled", "line": {line}, "text": {}}}"#, quoted(&why.message())));
            }
            _ => {}
        }
    }
    fs::write(target, format!("{{\"commands\": [\n {}]}}\n", rows.join(",\n ")))
}

fn main() -> ExitCode {
    let words: Vec<String> = env::args().collect();
    match &words[..] {
        [_, source, flag, target] if flag == "-o" => match assemble(source, target) {
            Ok(()) => ExitCode::SUCCESS,
            Err(why) => {
                eprintln!("{source}: {why}");
                ExitCode::FAILURE
            }
        },
        _ => {
            eprintln!("usage: assembler FILE.wast -o OUT.json");
            ExitCode::from(2)
        }
    }
}
