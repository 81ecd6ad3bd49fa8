//! Finds the library and the index texts that the crate is built over.
//!
//! The library is `libjillapun.a` in the folder that JILLAPUN_LIB names, or where `make c` or an unpacked archive has
//! it. The index texts are the files of the folder that JILLAPUN_INDEXES names, or of the repository's or the
//! archive's. The library is code for one system, which the build script checks first.

use std::env;
use std::path::{Path, PathBuf};
use std::process::exit;

const ARCHIVE: &str = "libjillapun.a";

fn main() {
    println!("cargo:rerun-if-changed=build.rs");
    let target = |what| env::var(format!("CARGO_CFG_TARGET_{what}")).unwrap_or_default();
    if (target("ARCH").as_str(), target("OS").as_str()) != ("x86_64", "linux") {
        failed(&format!(
            "{ARCHIVE} is code for x86_64 Linux (with SSE4.2, and glibc 2.14 or later), and the target is {}: build for \
             x86_64-unknown-linux-gnu, or use encoding_rs from crates.io",
            env::var("TARGET").unwrap_or_default()
        ));
    }
    let indexes = found("JILLAPUN_INDEXES", &["indexes", "share/recode/indexes"], "index-jis0208.txt");
    println!("cargo:rustc-env=JILLAPUN_INDEXES={}", indexes.display());
    let folder = found("JILLAPUN_LIB", &["out/c", "lib"], ARCHIVE);
    println!("cargo:rerun-if-changed={}", folder.join(ARCHIVE).display());
    println!("cargo:rustc-link-search=native={}", folder.display());
    println!("cargo:rustc-link-lib=static=jillapun");
}

/// The folder that a variable names, or else the first of the places above the crate that has a file.
fn found(variable: &str, places: &[&str], file: &str) -> PathBuf {
    println!("cargo:rerun-if-env-changed={variable}");
    let top = Path::new(env!("CARGO_MANIFEST_DIR")).join("../..");
    let folders = match env::var_os(variable) {
        Some(folder) => vec![PathBuf::from(folder)],
        None => places.iter().map(|place| top.join(place)).collect(),
    };
    for folder in &folders {
        if let (true, Ok(folder)) = (folder.join(file).is_file(), folder.canonicalize()) {
            return folder;
        }
    }
    let places: Vec<_> = folders.iter().map(|folder| folder.display().to_string()).collect();
    failed(&format!(
        "{file} is not in {}: run `make c` in the repository of Jillapun, which has the index texts and builds the \
         library, or name the folder by {variable}",
        places.join(" or ")
    ))
}

fn failed(message: &str) -> ! {
    eprintln!("encoding_rs over libjillapun: {message}");
    exit(1)
}
