//! Lays the unchanged Rust files and our stand-ins into one tree inside the target folder, for `src/lib.rs` to
//! include. The files come from the folder that HOWITZER_SRC names, by default `../shared/docs/src` beside the
//! repository, and the copies must have the bytes that `sources.sha256` lists.

use std::{
    env, fs,
    path::{Path, PathBuf},
    process::Command,
};

/// What the tree needs beyond the listed files: our file, and its place in the tree.
const STAND_INS: [(&str, &str); 6] = [
    ("nothing.rs", "memory/trie.rs"),
    ("trie_memory.rs", "memory/trie_memory.rs"),
    ("state.rs", "state/mod.rs"),
    ("nothing.rs", "utils/meta.rs"),
    ("nothing.rs", "utils/patch.rs"),
    ("nothing.rs", "utils/ser.rs"),
];

const CRATE: &str = "crates/fpvm/src";

fn main() {
    let here = PathBuf::from(env::var("CARGO_MANIFEST_DIR").unwrap());
    let out = PathBuf::from(env::var("OUT_DIR").unwrap());
    println!("cargo:rerun-if-env-changed=HOWITZER_SRC");
    let source = match env::var_os("HOWITZER_SRC") {
        Some(folder) => PathBuf::from(folder),
        None => here.join("../../../../shared/docs/src"),
    };
    let list = here.join("sources.sha256");
    for line in fs::read_to_string(&list).unwrap().lines() {
        let name = line.split_whitespace().nth(1).expect("a line of sources.sha256 is a sum and a name");
        copy(&source.join(name), &out.join(name));
    }
    check_sums(&list, &out);
    for (ours, place) in STAND_INS {
        copy(&here.join("stand-ins").join(ours), &out.join(CRATE).join(place));
    }
    fs::write(out.join("tree.rs"), tree(&out.join(CRATE))).unwrap();
}

fn copy(from: &Path, to: &Path) {
    println!("cargo:rerun-if-changed={}", from.display());
    fs::create_dir_all(to.parent().unwrap()).unwrap();
    let bytes = fs::read(from)
        .unwrap_or_else(|e| panic!("{}: {e} (set HOWITZER_SRC to the folder that holds crates/)", from.display()));
    fs::write(to, bytes).unwrap();
}

/// The copies are what gets compiled, so they are what is checked.
fn check_sums(list: &Path, folder: &Path) {
    println!("cargo:rerun-if-changed={}", list.display());
    let status = Command::new("sha256sum").args(["--check", "--quiet"]).arg(list).current_dir(folder).status();
    assert!(status.expect("sha256sum runs").success(), "the Rust files are not the ones that sources.sha256 lists");
}

/// `#[path]` takes only a literal, hence this file with the places written out.
fn tree(folder: &Path) -> String {
    ["memory", "mips", "state", "utils"]
        .iter()
        .map(|name| format!("#[path = {:?}]\npub mod {name};\n", folder.join(name).join("mod.rs")))
        .collect()
}
