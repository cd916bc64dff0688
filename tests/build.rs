//! Says where the planner's static library is: the folder in PLANNER_LIB,
//! or `../target/staticlib`.

use std::env;
use std::path::PathBuf;

fn main() {
    let here = PathBuf::from(env::var_os("CARGO_MANIFEST_DIR").expect("cargo sets it"));
    let folder = match env::var_os("PLANNER_LIB") {
        Some(folder) => here.join(folder),
        None => here.join("../target/staticlib"),
    };
    println!("cargo:rerun-if-env-changed=PLANNER_LIB");
    println!("cargo:rerun-if-changed=build.rs");
    println!("cargo:rerun-if-changed={}", folder.join("libplanner.a").display());
    println!("cargo:rustc-link-search=native={}", folder.display());
    println!("cargo:rustc-link-lib=static=planner");
}
