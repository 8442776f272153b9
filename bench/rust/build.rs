//! The oracle's main.rs includes a file `dddmp_by_path.rs`, which names the published dddmp module by its path. Here that file is written
//! with a second module, the calls of the benchmark, so that they are compiled into the same crate and nothing of the oracle is copied.

use std::path::PathBuf;
use std::{env, fs};

fn main() {
    println!("cargo::rerun-if-env-changed=ORACLE_SRC");
    println!("cargo::rerun-if-changed=calls.rs");
    let here = PathBuf::from(env::var("CARGO_MANIFEST_DIR").unwrap());
    let out = PathBuf::from(env::var("OUT_DIR").unwrap());
    let module = PathBuf::from(env::var("ORACLE_SRC").expect("ORACLE_SRC")).join("dddmp/mod.rs");
    assert!(module.is_file(), "no file {}; set ORACLE_SRC", module.display());
    let text = format!("#[path = {module:?}]\npub mod dddmp;\n#[path = {:?}]\npub mod calls;\n", here.join("calls.rs"));
    fs::write(out.join("dddmp_by_path.rs"), text).unwrap();
}
