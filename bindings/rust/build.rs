//! Finds the library: in the folder `DURSKEYL_LIB_DIR`; or in `lib` beside this file, where a release has it; or as the program `pkg-config`
//! says. Its archive is linked if it is there, so that the program needs no shared library when it starts; with `DURSKEYL_STATIC=0` the shared
//! library is, which no release of this crate has.
//!
//! A build script of a crate that depends on this one finds the folder in `DEP_DURSKEYL_LIBDIR`.

use std::env;
use std::path::Path;
use std::process::Command;

// The crate and the library have the same first two numbers: structures of another version may have another size.
const WANTED: [&str; 2] = ["durskeyl >= 0.2.0", "durskeyl < 0.3.0"];

fn main() {
    for name in ["DURSKEYL_LIB_DIR", "DURSKEYL_STATIC", "PKG_CONFIG", "PKG_CONFIG_PATH"] {
        println!("cargo:rerun-if-env-changed={name}");
    }
    let folder = match env::var("DURSKEYL_LIB_DIR") {
        Ok(folder) => folder,
        Err(_) => own_folder().unwrap_or_else(folder_told),
    };
    let has_archive = Path::new(&folder).join("libdurskeyl.a").is_file();
    let is_static = env::var("DURSKEYL_STATIC").map_or(has_archive, |it| it != "0");
    println!("cargo:rustc-link-search=native={folder}");
    println!("cargo:libdir={folder}");
    if is_static {
        println!("cargo:rerun-if-changed={folder}/libdurskeyl.a");
        println!("cargo:rustc-link-lib=static=durskeyl");
    } else {
        println!("cargo:rustc-link-lib=dylib=durskeyl");
        // reaches the tests and examples here; Cargo hands no such word on to a program that depends on this crate
        println!("cargo:rustc-link-arg=-Wl,-rpath,{folder}");
    }
}

/// The folder of the archive that was released with this crate, if it is there and can be linked for the processor and system that are asked for.
fn own_folder() -> Option<String> {
    let folder = format!("{}/lib", env::var("CARGO_MANIFEST_DIR").ok()?);
    let asked = |name: &str| env::var(format!("CARGO_CFG_TARGET_{name}")).unwrap_or_default();
    let is_there = Path::new(&folder).join("libdurskeyl.a").is_file();
    if !is_there || env::var("DURSKEYL_STATIC").is_ok_and(|it| it == "0") {
        return None;
    }
    if (asked("ARCH"), asked("OS")) != ("x86_64".to_string(), "linux".to_string()) {
        stop("this release of the crate has the library for x86_64 Linux alone");
    }
    Some(folder)
}

/// The folder in which `pkg-config` says that the library is.
fn folder_told() -> String {
    told(&[&["--exists", "--print-errors"], &WANTED[..]].concat());
    told(&["--variable=libdir", "durskeyl"]).trim_end_matches('\n').to_string()
}

/// What `pkg-config` answers to these words.
fn told(words: &[&str]) -> String {
    let program = env::var("PKG_CONFIG").unwrap_or_else(|_| "pkg-config".to_string());
    match Command::new(&program).args(words).output() {
        Ok(told) if told.status.success() => String::from_utf8(told.stdout).unwrap_or_else(|_| stop("a path that is not UTF-8")),
        Ok(told) => stop(String::from_utf8_lossy(&told.stderr).trim()),
        Err(error) => stop(&format!("`{program}` cannot be run: {error}")),
    }
}

fn stop(why: &str) -> ! {
    eprintln!(
        "{} is not found. Install it by ./install-library, and name its lib/pkgconfig in PKG_CONFIG_PATH; or its lib in DURSKEYL_LIB_DIR.",
        WANTED.join(", ")
    );
    eprintln!("{why}");
    std::process::exit(1);
}
