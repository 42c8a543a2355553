//! Writes the pass a second time, for drawings and chains: its text as it was published, with one
//! line that hands over the graph and the mutations where building ends and the first mutation has
//! not run. The pass itself is compiled from its own file, without that line.

use std::path::PathBuf;

const PASS: &str = "src/react_compiler_inference/infer_mutation_aliasing_ranges.rs";

/// Where building ends.
const BUILT: &str = "    // Process mutations\n";

/// The line. The type of a mutation has no name outside the pass, so that its fields are handed over.
const HAND_OVER: &str = "    hand_over(&state, mutations.iter().map(|m| \
                         (m.index, m.place.identifier, m.transitive, m.kind)).collect());\n";

fn main() {
    println!("cargo::rerun-if-changed={PASS}");
    let pass = std::fs::read_to_string(PASS).expect("the pass is there");
    let (building, rest) = pass.split_once(BUILT).expect("building ends before the mutations");
    assert!(!rest.contains(BUILT), "it ends once");
    // Text that is included cannot speak of its module: `//!` becomes `//`.
    let building = building.replace("//!", "//");
    let text = format!("{building}{HAND_OVER}{BUILT}{rest}");
    let folder = PathBuf::from(std::env::var_os("OUT_DIR").expect("cargo names the folder"));
    std::fs::write(folder.join("pass.rs"), text).expect("it can be written");
}
