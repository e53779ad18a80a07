//! Finds the static library: in the folder that SPOP_LIB_DIR names, or where pkg-config has `spop`, or where the repository's
//! `tools/native-lib spop` leaves it.

use std::{
    env,
    path::PathBuf,
    process::{exit, Command},
};

const LIBRARY: &str = "libspop.a";

fn main() {
    println!("cargo:rerun-if-env-changed=SPOP_LIB_DIR");
    println!("cargo:rerun-if-env-changed=PKG_CONFIG_PATH");
    let (folder, from) = folder();
    if folder.is_relative() {
        // The linker would look for it from another folder than the caller's.
        fail(&format!("SPOP_LIB_DIR is not a whole path: {}", folder.display()));
    }
    let library = folder.join(LIBRARY);
    // A folder that is not there is watched as well, so that a library that is built later is found.
    println!("cargo:rerun-if-changed={}", library.display());
    if !library.is_file() {
        fail(&format!(
            "there is no {LIBRARY} in {} ({from}); build it by `tools/native-lib spop` in the repository, or set SPOP_LIB_DIR to \
             its folder",
            folder.display()
        ));
    }
    println!("cargo:rustc-link-search=native={}", folder.display());
    println!("cargo:rustc-link-lib=static=spop");
}

fn fail(reason: &str) -> ! {
    eprintln!("muleflurry: {reason}");
    exit(1);
}

/// The folder to look in, and who names it. The first that names one decides: another library than the one that was meant would
/// be worse than none.
fn folder() -> (PathBuf, &'static str) {
    if let Some(folder) = env::var_os("SPOP_LIB_DIR").filter(|folder| !folder.is_empty()) {
        return (PathBuf::from(folder), "as SPOP_LIB_DIR says");
    }
    // What is installed or built here is for this machine's processor.
    if env::var_os("HOST") == env::var_os("TARGET") {
        if let Some(folder) = installed() {
            return (folder, "as pkg-config says");
        }
    }
    (top().join("target/native"), "where the repository builds it")
}

fn installed() -> Option<PathBuf> {
    let asked = Command::new("pkg-config").args(["--variable=libdir", "spop"]).output().ok()?;
    let folder = String::from_utf8(asked.stdout).ok()?;
    let folder = folder.trim_end();
    (asked.status.success() && !folder.is_empty()).then(|| PathBuf::from(folder))
}

fn top() -> PathBuf {
    let here = PathBuf::from(env::var_os("CARGO_MANIFEST_DIR").expect("cargo names the crate's folder"));
    here.ancestors().nth(2).unwrap_or(&here).to_path_buf()
}
