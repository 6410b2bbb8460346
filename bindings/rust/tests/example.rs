//! The example as a reader runs it, and what it prints.

use std::process::Command;

#[test]
fn the_weighbridge_prints_its_receipts() {
    let mut cargo = Command::new(env!("CARGO"));
    cargo.args(["run", "--offline", "--quiet", "--example", "weighbridge"]).current_dir(env!("CARGO_MANIFEST_DIR"));
    // the build that the tests themselves are of is there already
    if !cfg!(debug_assertions) {
        cargo.arg("--release");
    }
    let output = cargo.output().expect("cargo runs");
    assert!(output.status.success(), "{}", String::from_utf8_lossy(&output.stderr));
    assert_eq!(
        String::from_utf8_lossy(&output.stdout),
        "\"AB12\": 8460 kg donated\n\
         \"\": no receipt, the key is empty: weigh empty\n\
         \"AB12\": no receipt, not found: weigh empty\n"
    );
}
