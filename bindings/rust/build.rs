//! Finds the library: in the directory that `TODRENVAL_LIB_DIR` names, in the crate's directory `native`, or by pkg-config.
//! Without it, `cargo check` and `cargo doc` work, and a warning says that nothing can be linked.
use std::env;
use std::path::{Path, PathBuf};
use std::process::Command;

const ARCHIVE: &str = "libtodrenval.a";

fn main() {
    println!("cargo:rerun-if-env-changed=TODRENVAL_LIB_DIR");
    println!("cargo:rerun-if-env-changed=PKG_CONFIG_PATH");
    println!("cargo:rerun-if-changed=build.rs");
    println!("cargo:rerun-if-changed=native");
    match found() {
        Ok(directory) => {
            println!("cargo:rerun-if-changed={}", directory.join(ARCHIVE).display());
            println!("cargo:rustc-link-search=native={}", directory.display());
        }
        Err(why) => println!("cargo:warning=todrenval cannot be linked: {why}"),
    }
    println!("cargo:rustc-link-lib=static=todrenval");
}

fn found() -> Result<PathBuf, String> {
    let target = env::var("TARGET").unwrap_or_default();
    if !(target.starts_with("x86_64-") && target.contains("-linux-")) {
        return Err(format!("it is for Linux on x86-64, and not for {target}"));
    }
    if let Some(named) = env::var_os("TODRENVAL_LIB_DIR") {
        let directory = PathBuf::from(named);
        let why = format!("TODRENVAL_LIB_DIR: there is no {ARCHIVE} in {}", directory.display());
        return Some(directory).filter(|directory| has_archive(directory)).ok_or(why);
    }
    packed().or_else(installed).ok_or(format!(
        "there is no {ARCHIVE}: name its directory in TODRENVAL_LIB_DIR, put it into the directory native of this crate, or install \
         the package libtodrenval-dev"
    ))
}

fn packed() -> Option<PathBuf> {
    let directory = Path::new(&env::var_os("CARGO_MANIFEST_DIR")?).join("native");
    has_archive(&directory).then_some(directory)
}

fn installed() -> Option<PathBuf> {
    let asked = Command::new("pkg-config")
        .args(["--variable=libdir", "todrenval"])
        .output()
        .ok()?;
    let directory = PathBuf::from(String::from_utf8(asked.stdout).ok()?.trim());
    has_archive(&directory).then_some(directory)
}

fn has_archive(directory: &Path) -> bool {
    directory.join(ARCHIVE).is_file()
}
