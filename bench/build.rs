//! Links what is not Rust: the archive of the proved library, the plain C hash, and the requests to
//! callgrind. `bench/run` puts them into the folder that BENCH_LINK names.

use std::env;
use std::path::PathBuf;

fn main() {
    println!("cargo:rerun-if-changed=build.rs");
    println!("cargo:rerun-if-env-changed=BENCH_LINK");
    let folder =
        PathBuf::from(env::var_os("BENCH_LINK").expect("run this by bench/run, which sets BENCH_LINK"));
    for file in ["libcapi.a", "sha256.o", "counting.o"] {
        let path = folder.join(file);
        println!("cargo:rerun-if-changed={}", path.display());
        println!("cargo:rustc-link-arg={}", path.display());
    }
}
