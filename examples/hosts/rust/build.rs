//! Links the proved planner, which `rt lib` writes in crates/planner_ffi. PLANNER_LIB names another folder with it.

use std::{env, path::PathBuf};

fn main() {
    let folder = match env::var_os("PLANNER_LIB") {
        Some(folder) => PathBuf::from(folder),
        None => PathBuf::from(env!("CARGO_MANIFEST_DIR")).join("../../../crates/planner_ffi/out"),
    };

    println!("cargo:rerun-if-env-changed=PLANNER_LIB");
    println!(
        "cargo:rerun-if-changed={}",
        folder.join("libplanner_ffi.a").display()
    );
    println!("cargo:rustc-link-search=native={}", folder.display());
    println!("cargo:rustc-link-lib=static=planner_ffi");
}
