//! Says what is linked: the first of these that is there.
//!
//! 1. `libpaldwosk.a` or `libphaser_c.a` in the folder `PALDWOSK_ARCHIVE`;
//! 2. what `pkg-config` names for `paldwosk`;
//! 3. `vendor/x86_64-unknown-linux-gnu/libpaldwosk.a` in this package;
//! 4. the `libphaser_c.a` that `tools/build_program phaser_c` makes in the checkout.
//!
//! A `libpaldwosk.a` is whole. Of a `libphaser_c.a` the checkout's `tools/whole_archive` makes one here. For that it needs a C
//! compiler, and the toolchain's archive from the folder `RATTLE_C` or of the kit whose command `rt` is on the PATH.
//!
//! If there is nothing to link a warning says why. Only what links fails then: `cargo check` and `cargo doc` go on.
use std::env::{var, var_os};
use std::path::{Path, PathBuf};
use std::process::Command;

/// The target that there are archives for.
const TARGET: &str = "x86_64-unknown-linux-gnu";

/// Lines for cargo, or the one that says what is missing.
type Lines = Result<Vec<String>, String>;

fn main() {
    println!("cargo::rerun-if-changed=build.rs");
    for name in ["PALDWOSK_ARCHIVE", "RATTLE_C", "CC", "AR", "PKG_CONFIG_PATH", "PKG_CONFIG_LIBDIR"] {
        println!("cargo::rerun-if-env-changed={name}");
    }
    match linked() {
        Ok(lines) => lines.iter().for_each(|line| println!("cargo::{line}")),
        Err(fault) => {
            println!("cargo::warning={fault}");
            // The compiler finds no such library if it has to link one.
            println!("cargo::rustc-link-lib=static=paldwosk");
            // As long as this file isn't there, and it never is, the script runs each time: an archive may have come.
            println!("cargo::rerun-if-changed=no_archive");
        }
    }
}

fn linked() -> Lines {
    let target = var("TARGET").unwrap_or_default();
    if target != TARGET {
        return Err(format!("paldwosk links an archive for {TARGET} alone, not for {target}: build for that target"));
    }
    // As it is now: the same script is run for a package that was moved.
    let package = PathBuf::from(var_os("CARGO_MANIFEST_DIR").unwrap_or_default());
    if let Some(folder) = var_os("PALDWOSK_ARCHIVE") {
        let found = whole(Path::new(&folder)).map(Ok).or_else(|| made_whole(Path::new(&folder), &package));
        let fault = || format!("there is no libpaldwosk.a or libphaser_c.a in the folder PALDWOSK_ARCHIVE, {folder:?}");
        return found.unwrap_or_else(|| Err(fault()));
    }
    installed()
        .or_else(|| whole(&package.join("vendor").join(TARGET)).map(Ok))
        .or_else(|| made_whole(&package.join("../../../crates/phaser_c/out"), &package))
        .unwrap_or_else(|| Err(NOTHING_TO_LINK.to_string()))
}

const NOTHING_TO_LINK: &str = "paldwosk finds no archive to link: install one that `pkg-config --libs paldwosk` names, \
    or set PALDWOSK_ARCHIVE to the folder of libpaldwosk.a, or in a checkout make it by `tools/build_program phaser_c`";

/// Links the `libpaldwosk.a` of the folder, if it is there.
fn whole(folder: &Path) -> Option<Vec<String>> {
    let file = folder.join("libpaldwosk.a");
    file.exists().then(|| [vec![changed(&file)], archive_in(folder)].concat())
}

fn archive_in(folder: &Path) -> Vec<String> {
    vec![format!("rustc-link-search=native={}", folder.display()), "rustc-link-lib=static=paldwosk".to_string()]
}

/// The line by which the script runs again once this has changed.
fn changed(file: &Path) -> String {
    format!("rerun-if-changed={}", file.display())
}

/// What of the checkout is in an archive that is made here, beside the folder's: the script first.
const PARTS: [&str; 3] = ["tools/whole_archive", "packaging/paldwosk_shared.c", "include"];

/// Makes a `libpaldwosk.a` of the `libphaser_c.a` of the folder, if that is there, and links it.
fn made_whole(folder: &Path, package: &Path) -> Option<Lines> {
    let library = folder.join("libphaser_c.a");
    if !library.exists() {
        return None;
    }
    let parts = PARTS.map(|part| package.join("../../..").join(part));
    if !parts[0].exists() {
        let told = library.display();
        return Some(Err(format!("{told} isn't whole: `tools/whole_archive` of a checkout makes a libpaldwosk.a of it")));
    }
    let room = PathBuf::from(var_os("OUT_DIR")?);
    if let Some(fault) = fault_of(Command::new(&parts[0]).args([&room, &library])) {
        return Some(Err(fault));
    }
    let mut lines = archive_in(&room);
    lines.extend([&library].into_iter().chain(&parts).map(|part| changed(part)));
    Some(Ok(lines))
}

/// What a command says that fails, in one line.
fn fault_of(command: &mut Command) -> Option<String> {
    match command.output() {
        Ok(ran) if ran.status.success() => None,
        Ok(ran) => Some(String::from_utf8_lossy(&ran.stderr).split_whitespace().collect::<Vec<_>>().join(" ")),
        Err(fault) => Some(format!("{:?} doesn't run: {fault}", command.get_program())),
    }
}

/// What `pkg-config` names, if it is there and knows a version that fits. It speaks of the host.
fn installed() -> Option<Lines> {
    if var("HOST").ok()? != TARGET {
        return None;
    }
    let minor: u32 = env!("CARGO_PKG_VERSION_MINOR").parse().ok()?;
    let major = env!("CARGO_PKG_VERSION_MAJOR");
    let fits = format!("paldwosk >= {major}.{minor}, paldwosk < {major}.{}", minor + 1);
    let mut command = Command::new("pkg-config");
    // Else it leaves out a folder that the linker looks at anyway.
    let ran = command.args(["--libs", &fits]).env("PKG_CONFIG_ALLOW_SYSTEM_LIBS", "1").output().ok()?;
    if !ran.status.success() {
        return None;
    }
    Some(Ok(links(&String::from_utf8_lossy(&ran.stdout))))
}

/// The lines for words such as `-L/usr/local/lib -lpaldwosk`. A space within a word has a backslash before it.
fn links(words: &str) -> Vec<String> {
    let words: Vec<_> = words.replace("\\ ", "\0").split_whitespace().map(|word| word.replace('\0', " ")).collect();
    let folders: Vec<_> = words.iter().filter_map(|word| word.strip_prefix("-L")).collect();
    let mut lines: Vec<_> = folders.iter().map(|folder| format!("rustc-link-search=native={folder}")).collect();
    for name in words.iter().filter_map(|word| word.strip_prefix("-l")) {
        // The archive goes before a shared library beside it: a program then needs no file where it runs.
        let archive = folders.iter().filter(|_| name == "paldwosk").find_map(|folder| whole(Path::new(folder)));
        lines.extend(archive.unwrap_or_else(|| vec![format!("rustc-link-lib={name}")]));
    }
    lines
}
