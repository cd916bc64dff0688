//! Links libplanner.a from the folder in PLANNER_LIB, by default ../target/staticlib.

use std::env;
use std::path::PathBuf;

fn main() {
    println!("cargo:rerun-if-env-changed=PLANNER_LIB");
    let here = PathBuf::from(env::var("CARGO_MANIFEST_DIR").expect("the package's folder"));
    let named = env::var("PLANNER_LIB").unwrap_or("../target/staticlib".into());
    let folder = here.join(named);
    let library = folder.join("libplanner.a");
    assert!(library.exists(), "no {}: build it, or set PLANNER_LIB", library.display());
    println!("cargo:rerun-if-changed={}", library.display());
    println!("cargo:rustc-link-search=native={}", folder.display());
    println!("cargo:rustc-link-lib=static=planner");
}
