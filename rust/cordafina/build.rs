//! Links the proved archive: the file that the variable CORDAFINA_LIB names (a
//! path that is not absolute starts at the top folder of the repository), or the
//! one that `rt lib` writes in crates/cordafina.
//!
//! Where there is none, `cargo check`, `cargo doc` and an editor go on with a
//! warning; only a program or a test then fails, when it is linked, and the name
//! of the library that is not found says what to do.

use std::path::PathBuf;
use std::{env, fs};

const BUILT: &str = "crates/cordafina/out/libcordafina.a";
const FOUND: &str = "cordafina_archive";
const MISSING: &str = "cordafina_is_missing__make_it_with__rt_lib_in_crates_cordafina";

fn main() {
    let top = folder("CARGO_MANIFEST_DIR").join("../..");
    let archive = top.join(env::var_os("CORDAFINA_LIB").unwrap_or(BUILT.into()));
    println!("cargo:rerun-if-env-changed=CORDAFINA_LIB");
    println!("cargo:rerun-if-changed={}", archive.display());

    // A copy under a name of its own, whatever the file is called.
    let out = folder("OUT_DIR");
    let name = match fs::copy(&archive, out.join(format!("lib{FOUND}.a"))) {
        Ok(_) => FOUND,
        Err(error) => {
            println!("cargo:warning=no archive at {}: {error}", archive.display());
            println!("cargo:warning=checks and documentation work, programs and tests do not link");
            println!(
                "cargo:warning=make it with `(cd crates/cordafina && rt lib)`, or name it in CORDAFINA_LIB"
            );
            MISSING
        }
    };
    println!("cargo:rustc-link-search=native={}", out.display());
    println!("cargo:rustc-link-lib=static:-bundle={name}");
}

/// A folder that cargo names to a build script.
fn folder(variable: &str) -> PathBuf {
    env::var_os(variable).map(PathBuf::from).expect(variable)
}
