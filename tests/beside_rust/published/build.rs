//! Finds the published files in the folder that VEKALUMIST_PUBLISHED names and writes into OUT_DIR
//! one line of `include!` for each; of mast/mod.rs, which needs far more than is at hand, the two
//! pieces that run unchanged are cut out. Nothing of the published text is kept elsewhere.
use std::{
    env, fs,
    path::{Path, PathBuf},
};

const VARIABLE: &str = "VEKALUMIST_PUBLISHED";
const MODULES: [&str; 4] = ["info", "layout", "resolved", "view"];

fn main() {
    println!("cargo:rerun-if-env-changed={VARIABLE}");
    println!("cargo:rerun-if-changed=build.rs");
    let mast = published_folder().join("src/mast");
    for module in MODULES {
        let file = mast.join("serialization").join(module).with_extension("rs");
        store(module, &include_line(&file));
    }
    cut_mast_mod(&mast.join("mod.rs"));
}

fn published_folder() -> PathBuf {
    let Some(folder) = env::var_os(VARIABLE) else {
        panic!(
            "{VARIABLE} is not set: it must name the folder of the published files of miden-core \
             0.36.3, the one that holds src/mast/serialization/layout.rs"
        )
    };
    fs::canonicalize(&folder)
        .unwrap_or_else(|e| panic!("{VARIABLE} names {}: {e}", Path::new(&folder).display()))
}

fn include_line(file: &Path) -> String {
    println!("cargo:rerun-if-changed={}", file.display());
    assert!(file.is_file(), "{VARIABLE}: there is no {}", file.display());
    format!("include!({:?});\n", file.to_str().expect("a path in UTF-8"))
}

/// The section "MAST NODE ID" and the line of `MAX_NODES`.
fn cut_mast_mod(file: &Path) {
    println!("cargo:rerun-if-changed={}", file.display());
    let text = fs::read_to_string(file).unwrap_or_else(|e| panic!("{}: {e}", file.display()));
    let (_, after) = text.split_once("// MAST NODE ID\n").expect("the section of MastNodeId");
    let (section, _) = after
        .split_once("#[cfg(any(test, feature = \"arbitrary\"))]\nimpl Arbitrary for MastNodeId")
        .expect("the end of the section");
    store("mast_node_id", section);
    let max_nodes = text.lines().find(|l| l.trim_start().starts_with("const MAX_NODES"));
    // Only the braces around the line are ours.
    store("max_nodes", &format!("impl Published {{\n{}\n}}\n", max_nodes.expect("MAX_NODES")));
}

fn store(name: &str, text: &str) {
    let out = PathBuf::from(env::var_os("OUT_DIR").expect("OUT_DIR"));
    let file = out.join(name).with_extension("rs");
    fs::write(&file, text).unwrap_or_else(|e| panic!("{}: {e}", file.display()));
}
