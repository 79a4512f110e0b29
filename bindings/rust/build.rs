//! Finds the archive `libhoiskend.a`: in the folder that HOISKEND_LIB names, or else where pkg-config says that the
//! library is installed.
use std::env;
use std::process::Command;

const VARIABLE: &str = "HOISKEND_LIB";

/// The folder that pkg-config tells, where it knows the library.
fn installed() -> Option<String> {
    let program = env::var("PKG_CONFIG").unwrap_or_else(|_| "pkg-config".into());
    let told = Command::new(program)
        .args(["--variable=libdir", "hoiskend"])
        .output()
        .ok()?;
    let folder = String::from_utf8(told.stdout).ok()?.trim().to_owned();
    (told.status.success() && !folder.is_empty()).then_some(folder)
}

fn main() {
    println!("cargo:rerun-if-env-changed={VARIABLE}");
    println!("cargo:rerun-if-env-changed=PKG_CONFIG_PATH");
    let folder = env::var(VARIABLE).ok().or_else(installed).unwrap_or_else(|| {
        panic!("{VARIABLE} doesn't say in which folder libhoiskend.a is, and pkg-config doesn't know hoiskend")
    });
    println!("cargo:rerun-if-changed={folder}/libhoiskend.a");
    println!("cargo:rustc-link-search=native={folder}");
    println!("cargo:rustc-link-lib=static=hoiskend");
}
