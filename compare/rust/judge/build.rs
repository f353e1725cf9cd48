//! With the feature `ours`: links the static library of our machine, out of the folder that ROCCHIVANDA_LIB names.

use std::{env, path::Path};

fn main() {
    println!("cargo:rerun-if-env-changed=ROCCHIVANDA_LIB");
    if env::var_os("CARGO_FEATURE_OURS").is_none() {
        return;
    }
    let folder = env::var("ROCCHIVANDA_LIB").expect("ROCCHIVANDA_LIB names the folder of librocchivanda.a");
    println!("cargo:rerun-if-changed={}", Path::new(&folder).join("librocchivanda.a").display());
    println!("cargo:rustc-link-search=native={folder}");
}
