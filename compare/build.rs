//! Links the archives that the features ask for. Without features there is nothing to do.

#![forbid(unsafe_code)]

use std::env;
use std::path::PathBuf;

/// The environment variable that names the folder of the archives.
const FOLDER: &str = "SPLINEPEARL_LIBS";

/// The names that an archive may have, of which the first that is there is linked, and the features
/// that need it, as cargo tells build scripts of them.
const ARCHIVES: [(&[&str], &[&str]); 2] = [
    (&["test_readers", "readers"], &["CARGO_FEATURE_READERS"]),
    (
        &["splinepearl"],
        &[
            "CARGO_FEATURE_JUDGE",
            "CARGO_FEATURE_LINES",
            "CARGO_FEATURE_SESSION",
        ],
    ),
];

fn main() {
    println!("cargo::rerun-if-changed=build.rs");
    println!("cargo::rerun-if-env-changed={FOLDER}");
    for (names, features) in ARCHIVES {
        if features.iter().any(|name| env::var_os(name).is_some()) {
            if let Err(why) = link(names) {
                println!("cargo::error={why}");
            }
        }
    }
}

fn link(names: &[&str]) -> Result<(), String> {
    let archive = format!("lib{}.a", names[0]);
    let folder = env::var(FOLDER)
        .map_err(|_| format!("{FOLDER} is not set; it has to name the folder of {archive}"))?;
    let path = PathBuf::from(&folder);
    // A build script doesn't run where cargo was called, so a relative path would mislead.
    if !path.is_absolute() {
        return Err(format!(
            "{FOLDER} has to be an absolute path, not `{folder}`"
        ));
    }
    for name in names {
        let archive = path.join(format!("lib{name}.a"));
        println!("cargo::rerun-if-changed={}", archive.display());
        if archive.is_file() {
            println!("cargo::rustc-link-search=native={folder}");
            println!("cargo::rustc-link-lib=static={name}");
            return Ok(());
        }
    }
    Err(format!("{folder} has no {archive} (see {FOLDER})"))
}
