//! Finds the static library, or has the repository's `build` script build it, and tells cargo to link it. Whatever is missing is said on standard
//! error, which cargo shows when a build script fails.

use std::env;
use std::fs;
use std::path::{Path, PathBuf};
use std::process::{exit, Command, Stdio};

const REMEDY: &str = "set HAILFEATHER_ARCHIVE to a libhailfeather.a that was built elsewhere";

fn main() {
    let package = PathBuf::from(cargo_sets("CARGO_MANIFEST_DIR"));
    println!("cargo::rerun-if-changed=build.rs");
    println!("cargo::rerun-if-env-changed=HAILFEATHER_ARCHIVE");
    require_refusals(&package);
    let archive = match env::var_os("HAILFEATHER_ARCHIVE") {
        Some(named) if !named.is_empty() => named_archive(Path::new(&named), &package),
        _ => repository_archive(&package),
    };
    println!("cargo::rerun-if-changed={}", archive.display());
    link(&archive);
}

/// The archive that HAILFEATHER_ARCHIVE names. It is looked for here, not by the `build` script, so that a copied package needs neither script nor
/// bash.
fn named_archive(named: &Path, package: &Path) -> PathBuf {
    let archive = package.join(named);
    if !archive.is_file() {
        let place = if named.is_absolute() {
            String::new()
        } else {
            format!(" (a path without / in front is taken from {})", package.display())
        };
        fail(&format!("HAILFEATHER_ARCHIVE names {}, where there is no file{place}", archive.display()));
    }
    archive
}

/// The archive that the `build` script two directories up finds or builds.
fn repository_archive(package: &Path) -> PathBuf {
    let repository = package.join("../..");
    let script = repository.join("build");
    if !script.is_file() {
        fail(&format!(
            "{} is not there, so this package stands outside its repository and cannot build the archive; {REMEDY}",
            script.display()
        ));
    }
    // Of a crate what the archive is made of, and not out/, where each check writes.
    let crates = fs::read_dir(repository.join("crates")).into_iter().flatten().flatten();
    let parts = crates.flat_map(|one| ["src", "specs", "proofs"].map(|part| one.path().join(part)));
    let files = ["build", "crates.txt"].map(|name| repository.join(name));
    for source in parts.filter(|part| part.is_dir()).chain(files) {
        println!("cargo::rerun-if-changed={}", source.display());
    }
    let run = Command::new("bash").arg(&script).stdin(Stdio::null()).stderr(Stdio::inherit()).output();
    let output = run.unwrap_or_else(|error| {
        fail(&format!(
            "bash, which runs {}, did not start ({error}); install bash, or {REMEDY}",
            script.display()
        ))
    });
    if !output.status.success() {
        fail(&format!("{} ended with {}; what it says stands above", script.display(), output.status));
    }
    match String::from_utf8(output.stdout) {
        Ok(path) if Path::new(path.trim_end()).is_file() => PathBuf::from(path.trim_end()),
        other => fail(&format!("{} did not print the path of an archive but {other:?}", script.display())),
    }
}

/// The words of the refusals are compiled in; in the repository the file is a copy of include/refusals.txt.
fn require_refusals(package: &Path) {
    let words = package.join("refusals.txt");
    if !words.is_file() {
        fail(&format!(
            "{} is not there; copy the package's folder whole, or copy include/refusals.txt of the repository to it",
            words.display()
        ));
    }
}

/// Copies the archive to where it has the file name that the linker looks for, whatever its own is.
fn link(archive: &Path) {
    let out = PathBuf::from(cargo_sets("OUT_DIR"));
    let copy = out.join("libhailfeather.a");
    if let Err(error) = fs::copy(archive, &copy) {
        fail(&format!("{} could not be copied to {}: {error}", archive.display(), copy.display()));
    }
    println!("cargo::rustc-link-search=native={}", out.display());
    println!("cargo::rustc-link-lib=static=hailfeather");
}

fn cargo_sets(variable: &str) -> std::ffi::OsString {
    env::var_os(variable).unwrap_or_else(|| fail(&format!("{variable} is not set: cargo runs this program")))
}

fn fail(what: &str) -> ! {
    eprintln!("hailfeather: {what}");
    exit(1)
}
