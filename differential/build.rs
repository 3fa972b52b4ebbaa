// Links the archive with the call cardrun_lines: ARCHIVE names it, by default target/lib/libcardrun_lines.a of the
// repository. LIBRARY names the archive of the library, the calls on lent memory; without it the library is neither
// compared nor measured. CORES names the archive that bench/cores.sh makes, for measuring calls without the test of the
// memory.
use std::{env, path::PathBuf};

fn main() {
    let here = env::var("CARGO_MANIFEST_DIR").unwrap();
    let archive = env::var("ARCHIVE").unwrap_or_else(|_| format!("{here}/../target/lib/libcardrun_lines.a"));
    let missing = format!("{archive} is missing: tools/build-library.sh");
    let archive = PathBuf::from(&archive).canonicalize().unwrap_or_else(|_| panic!("{missing}"));
    println!("cargo:rerun-if-env-changed=ARCHIVE");
    println!("cargo:rerun-if-changed={}", archive.display());
    println!("cargo:rustc-link-arg={}", archive.display());
    println!("cargo:rerun-if-env-changed=LIBRARY");
    println!("cargo:rustc-check-cfg=cfg(library)");
    if let Ok(library) = env::var("LIBRARY") {
        println!("cargo:rerun-if-changed={library}");
        println!("cargo:rustc-link-arg={library}");
        println!("cargo:rustc-cfg=library");
    }
    println!("cargo:rerun-if-env-changed=CORES");
    println!("cargo:rustc-check-cfg=cfg(cores)");
    if let Ok(cores) = env::var("CORES") {
        println!("cargo:rerun-if-changed={cores}");
        println!("cargo:rustc-link-arg={cores}");
        println!("cargo:rustc-cfg=cores");
    }
}
