//! Finds the three archives of the proved functions and links them: the files that TEYK_ARCHIVE, TEYK_SHEET_ARCHIVE and TEYK_READ_ARCHIVE name (with the
//! first alone, libteykonasir_sheet.a and libteykonasir_read.a beside it), or those that `tools/archives` makes in the repository that this crate stands in.
use std::env;
use std::fs;
use std::path::{Path, PathBuf};
use std::process::{exit, Command};

/// Each archive's name, and the variable that may name its file.
const ARCHIVES: [(&str, &str); 3] = [("teykonasir", "TEYK_ARCHIVE"), ("teykonasir_sheet", "TEYK_SHEET_ARCHIVE"), ("teykonasir_read", "TEYK_READ_ARCHIVE")];

fn main() {
    println!("cargo:rerun-if-changed=build.rs");
    if variable("CARGO_CFG_TARGET_ARCH") != "x86_64" || variable("CARGO_CFG_TARGET_OS") != "linux" {
        stop(&format!("the archives are for x86-64 Linux, and this build is for {}", variable("TARGET")));
    }
    let root = Path::new(&variable("CARGO_MANIFEST_DIR")).join("../..");
    let out = PathBuf::from(variable("OUT_DIR"));
    println!("cargo:rustc-link-search=native={}", out.display());
    for (name, named) in ARCHIVES {
        println!("cargo:rerun-if-env-changed={}", named);
        let archive = given(name, named).unwrap_or_else(|| made(&root, name));
        println!("cargo:rerun-if-changed={}", archive.display());
        // under one name, whatever the archive is called
        if let Err(e) = fs::copy(&archive, out.join(file_name(name))) {
            stop(&format!("no archive at {}: {} ({} names it)", archive.display(), e, named));
        }
        println!("cargo:rustc-link-lib=static={}", name);
    }
}

fn file_name(name: &str) -> String {
    format!("lib{}.a", name)
}

/// The archive that its variable names, or the one beside that which TEYK_ARCHIVE names.
fn given(name: &str, named: &str) -> Option<PathBuf> {
    let beside = |first| Path::new(&first).with_file_name(file_name(name));
    env::var_os(named).map(PathBuf::from).or_else(|| env::var_os(ARCHIVES[0].1).map(beside))
}

/// What tools/archives ends with where there is no rt on the path.
const NO_RT: i32 = 127;

/// The archive of the repository, made anew where its sources changed.
fn made(root: &Path, name: &str) -> PathBuf {
    if !root.join("crates.txt").is_file() {
        stop("this crate stands outside its repository: set TEYK_ARCHIVE to the archive libteykonasir.a");
    }
    sources(root);
    let archive = root.join("target/staticlib").join(file_name(name));
    match Command::new(root.join("tools/archives")).arg(name).output() {
        Ok(said) if said.status.success() => archive,
        Ok(said) if said.status.code() == Some(NO_RT) && archive.is_file() => {
            println!("cargo:warning=no rt on the path: {} is linked as it stands", archive.display());
            archive
        }
        Ok(said) if said.status.code() == Some(NO_RT) => {
            stop(&format!("no rt on the path, and there is no {}: put rt on the path, or set TEYK_ARCHIVE to an archive", archive.display()))
        }
        Ok(said) => stop(&format!("`tools/archives {}` failed:\n{}{}", name, String::from_utf8_lossy(&said.stdout), String::from_utf8_lossy(&said.stderr))),
        Err(e) => stop(&format!("tools/archives is not to be run: {}", e)),
    }
}

/// Tells Cargo the sources of all crates; what rt keeps beside them, in out/, is none of them.
fn sources(root: &Path) {
    println!("cargo:rerun-if-changed={}", root.join("crates.txt").display());
    let crates = fs::read_dir(root.join("crates")).unwrap_or_else(|e| stop(&format!("no crates/: {}", e)));
    for folder in crates.flatten() {
        for part in ["src", "specs", "proofs"] {
            let part = folder.path().join(part);
            if part.is_dir() {
                println!("cargo:rerun-if-changed={}", part.display());
            }
        }
    }
}

fn variable(name: &str) -> String {
    env::var(name).unwrap_or_else(|_| stop(&format!("cargo gave no {}", name)))
}

fn stop(why: &str) -> ! {
    eprintln!("teykonasir: {}", why);
    exit(1)
}
