// Writes $OUT_DIR/fb.rs, the module list of a crate: the three files of fusion-blossom, compiled where they stand and
// unmodified, and beside them the stand-ins of this folder. FB_SRC names the folder of the three files (X.rs, or
// src--src--X.rs.txt), which are not in the repository.
use std::{env, fs, path::Path};

fn main() {
    let here = env::var("CARGO_MANIFEST_DIR").unwrap();
    let package = env::var("CARGO_PKG_NAME").unwrap();
    let common = format!("{here}/../common");
    let src = env::var("FB_SRC").expect("FB_SRC must name the folder of the three Rust files: differential/README.md");
    println!("cargo:rerun-if-env-changed=FB_SRC");
    println!("cargo:rerun-if-changed={common}/build.rs");
    let mut out = String::new();
    let mut add = |m: &str, p: &Path, attr: &str| {
        let p = fs::canonicalize(p).unwrap_or_else(|_| panic!("{} is missing; FB_SRC names its folder", p.display()));
        println!("cargo:rerun-if-changed={}", p.display());
        out += &format!("{attr}\n#[path = {:?}]\npub mod {m};\n", p.display().to_string());
    };
    let lock = if package == "unlocked" { "lock_none" } else { "lock" };
    add("lock", &Path::new(&common).join(format!("{lock}.rs")), "");
    add("pointers", &Path::new(&common).join("pointers.rs"), "#[macro_use]");
    for m in ["visualize", "mwpm_solver", "weak_table"] {
        add(m, &Path::new(&common).join(format!("{m}.rs")), "");
    }
    for m in ["util", "dual_module", "dual_module_serial"] {
        let p = Path::new(&src).join(format!("src--src--{m}.rs.txt"));
        let p = if p.exists() { p } else { Path::new(&src).join(format!("{m}.rs")) };
        add(m, &p, "#[allow(warnings, clippy::all)]");
    }
    for m in ["card", "state", "session", "rounds", "remove", "erasures"] {
        add(m, &Path::new(&common).join(format!("{m}.rs")), "");
    }
    fs::write(Path::new(&env::var("OUT_DIR").unwrap()).join("fb.rs"), out).unwrap();
}
