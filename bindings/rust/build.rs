// SPDX-License-Identifier: Apache-2.0
//! Names the static libraries for the linker. They are in `bindings/out`, into which
//! `bindings/build.py` puts them, or in the folder that `SCION_LIB` names.

use std::env;
use std::path::{Path, PathBuf};

fn main() {
    println!("cargo:rerun-if-env-changed=SCION_LIB");
    let own = || Path::new(env!("CARGO_MANIFEST_DIR")).join("../out");
    let folder = env::var_os("SCION_LIB").map_or_else(own, PathBuf::from);
    let mut libraries = vec!["scion_ffi"];
    if env::var_os("CARGO_FEATURE_PATHS").is_some() {
        libraries.extend(["scion_ffi_paths", "libc_c"]);
    }
    println!("cargo:rustc-link-search=native={}", folder.display());
    for library in libraries {
        let archive = folder.join(format!("lib{library}.a"));
        if !archive.exists() {
            let path = archive.display();
            panic!("{path} is missing: python3 bindings/build.py --paths makes it");
        }
        println!("cargo:rerun-if-changed={}", archive.display());
        println!("cargo:rustc-link-lib=static={library}");
    }
}
