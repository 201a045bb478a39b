//! Has `isle` compile the rule files, and lays the text where `src/main.rs` includes it.

use std::env;
use std::fs;
use std::path::Path;
use std::process::Command;

/// The rule files, in order.
const RULES: [&str; 1] = ["rules/lower.isle"];

fn main() {
    println!("cargo:rerun-if-env-changed=ISLE");
    for rules in RULES {
        println!("cargo:rerun-if-changed={rules}");
    }
    let isle = env::var("ISLE").unwrap_or_else(|_| "../../isle".to_string());
    // `include!` takes no `#![allow(..)]`, so these lines are left out; they stand at the module instead.
    let compiled = Command::new(&isle).args(["compile", "--no-allow"]).args(RULES).output();
    let compiled = compiled.unwrap_or_else(|e| panic!("{isle} isn't run: {e}"));
    if !compiled.status.success() {
        panic!("{}", String::from_utf8_lossy(&compiled.stderr));
    }
    let out = env::var("OUT_DIR").expect("cargo gives a folder for what is made");
    fs::write(Path::new(&out).join("lower.rs"), compiled.stdout).expect("the text is written");
}
