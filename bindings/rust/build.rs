//! Finds `libpmpmon.a`: in the directory `PMPMON_LIB_DIR`, otherwise with `pkg-config`.

use std::env;
use std::process::{exit, Command};

fn main() {
    println!("cargo:rerun-if-env-changed=PMPMON_LIB_DIR");
    println!("cargo:rerun-if-env-changed=PKG_CONFIG_PATH");
    let Some(dir) = env::var("PMPMON_LIB_DIR").ok().or_else(from_pkg_config) else {
        eprintln!(
            "libpmpmon.a was not found: set PMPMON_LIB_DIR to its directory, or PKG_CONFIG_PATH to that of pmpmon.pc"
        );
        exit(1);
    };
    println!("cargo:rerun-if-changed={dir}/libpmpmon.a");
    println!("cargo:rustc-link-search=native={dir}");
    println!("cargo:rustc-link-lib=static=pmpmon");
}

/// Asks `pkg-config` for the library's directory.
fn from_pkg_config() -> Option<String> {
    let asked = ["--variable=libdir", "pmpmon"];
    let ended = Command::new("pkg-config").args(asked).output().ok()?;
    let dir = String::from_utf8(ended.stdout).ok()?.trim().to_owned();
    (ended.status.success() && !dir.is_empty()).then_some(dir)
}
