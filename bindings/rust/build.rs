//! Links libsplinepearl.a from the folder that SPLINEPEARL_LIBS names.

#![forbid(unsafe_code)]

use std::env;
use std::path::PathBuf;

/// The environment variable that names the folder of the archive.
const FOLDER: &str = "SPLINEPEARL_LIBS";

const ARCHIVE: &str = "libsplinepearl.a";

fn main() {
    println!("cargo::rerun-if-changed=build.rs");
    println!("cargo::rerun-if-env-changed={FOLDER}");
    if let Err(why) = link() {
        println!("cargo::error={why}");
    }
}

fn link() -> Result<(), String> {
    let of_target = |part: &str| env::var(format!("CARGO_CFG_TARGET_{part}")).unwrap_or_default();
    let (machine, system) = (of_target("ARCH"), of_target("OS"));
    if (machine.as_str(), system.as_str()) != ("x86_64", "linux") {
        return Err(format!(
            "{ARCHIVE} is for x86-64 Linux, not for {machine} {system}"
        ));
    }
    let folder = env::var(FOLDER)
        .map_err(|_| format!("{FOLDER} is not set; set it to the absolute path of the folder of {ARCHIVE}, which `bash scripts/archive.sh splinepearl` writes to target/staticlib"))?;
    let path = PathBuf::from(&folder).join(ARCHIVE);
    // A build script doesn't run in the folder where cargo was called, so a relative path would be misread.
    if !path.is_absolute() {
        return Err(format!(
            "{FOLDER} has to be an absolute path, not `{folder}`"
        ));
    }
    if !path.is_file() {
        return Err(format!("{} is missing (see {FOLDER}); `bash scripts/archive.sh splinepearl` writes it to target/staticlib", path.display()));
    }
    println!("cargo::rerun-if-changed={}", path.display());
    println!("cargo::rustc-link-search=native={folder}");
    println!("cargo::rustc-link-lib=static=splinepearl");
    Ok(())
}
