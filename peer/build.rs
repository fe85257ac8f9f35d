//! Finds the archive of the proved library for the comparison in `tests/archive.rs`: in the folder
//! that ADUNWEZI_ARCHIVE names (from this one, where it is not a whole path), or else where the
//! repository's own tool puts it. Without it everything else still builds and runs, and the
//! comparison says that it was left out; only a folder that was named must have it.

use std::env;
use std::path::PathBuf;

const NAME: &str = "libcapi.a";

fn main() {
    println!("cargo:rustc-check-cfg=cfg(archive)");
    println!("cargo:rerun-if-changed=build.rs");
    println!("cargo:rerun-if-env-changed=ADUNWEZI_ARCHIVE");
    let here = PathBuf::from(env::var_os("CARGO_MANIFEST_DIR").expect("cargo names the package's folder"));
    let named = env::var_os("ADUNWEZI_ARCHIVE");
    let archive = here.join(named.as_deref().unwrap_or("../target/host".as_ref())).join(NAME);
    if archive.is_file() {
        // A missing file must not be watched: cargo would then build everything anew each time.
        println!("cargo:rerun-if-changed={}", archive.display());
        println!("cargo:rustc-cfg=archive");
        println!("cargo:rustc-link-arg-tests={}", archive.display());
    } else if named.is_some() {
        panic!("ADUNWEZI_ARCHIVE names a folder without {NAME}: {}", archive.display());
    }
}
