//! Links the library, which is two files. The environment variable COMFY_C names the folder of these files. If it isn't set, the
//! files are in the package's folder `lib`, which has a folder for each target.

use std::env;
use std::path::Path;

/// The folders of `lib`. The library for Linux serves programs with glibc and programs with musl.
const TARGETS: [&str; 5] = ["linux-x86_64", "linux-aarch64", "macos-aarch64", "macos-x86_64", "windows-x86_64"];

fn main() {
    println!("cargo::rerun-if-env-changed=COMFY_C");
    let target = format!("{}-{}", of("CARGO_CFG_TARGET_OS"), of("CARGO_CFG_TARGET_ARCH"));
    let given = env::var("COMFY_C").ok();
    if given.is_none() && !TARGETS.contains(&target.as_str()) {
        let all = TARGETS.join(", ");
        println!("cargo::error=the library is for {all}, and this build is for {}; README.md says what to do", of("TARGET"));
        return;
    }
    let folder = given.unwrap_or_else(|| format!("{}/lib/{target}", of("CARGO_MANIFEST_DIR")));
    for library in ["comfy_c", "libc_c"] {
        let is_msvc = of("CARGO_CFG_TARGET_ENV") == "msvc";
        let file = if is_msvc { format!("{library}.lib") } else { format!("lib{library}.a") };
        println!("cargo::rerun-if-changed={folder}/{file}");
        // `cargo check` and `cargo doc` need no library, so a missing file is only a warning.
        if !Path::new(&folder).join(&file).exists() {
            println!("cargo::warning=no {file} in {folder}; COMFY_C names the folder that has it, README.md says who makes it");
        }
        println!("cargo::rustc-link-lib=static={library}");
    }
    println!("cargo::rustc-link-search=native={folder}");
}

/// The value of an environment variable that cargo sets, or an empty text if it isn't set.
fn of(name: &str) -> String {
    env::var(name).unwrap_or_default()
}
