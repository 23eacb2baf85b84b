//! Links the port, and lays the original's files, unchanged, and our stand-ins out as one module tree in OUT_DIR.
//!
//! The port is the archive that `rt lib` writes in crates/cobrwydd, or the one that COBRWYDD_PORT names, or a shared library.
//! The original is read from the folder in COBRWYDD_RUST, by default ../shared/docs/src beside the repository.
//! Where one of its files is missing, the tree is empty, `cfg(original)` is not set, and the program says so when run.

use std::env;
use std::fs;
use std::path::{Path, PathBuf};

/// The original's files, as they lie under the given folder's `src`.
const ORIGINAL: [&str; 8] = [
    "distance/matrix.rs",
    "evaluation/mod.rs",
    "evaluation/schedule.rs",
    "local_search/mod.rs",
    "local_search/route_elimination.rs",
    "local_search/route_minimization.rs",
    "models/customer.rs",
    "models/vehicle.rs",
];

/// Our files that stand in for what the original's files name, under `stand-ins`.
const STAND_INS: [&str; 5] =
    ["distance/mod.rs", "evaluation/check.rs", "evaluation/evaluator.rs", "local_search/or_opt.rs", "models/mod.rs"];

/// Modules of `local_search` that the original declares and the port leaves out, with the one name each must have.
const LEFT_OUT: [(&str, &str); 6] = [
    ("cross_depot", "pub fn cross_depot_improve() {}\n"),
    ("exchange", "pub fn exchange_improve() {}\n"),
    ("relocate", "pub fn relocate_improve() {}\n"),
    ("soft", ""),
    ("three_opt", "pub fn three_opt_improve() {}\n"),
    ("two_opt", "pub fn two_opt_improve() {}\n"),
];

fn main() {
    println!("cargo::rustc-check-cfg=cfg(original)");
    println!("cargo::rerun-if-env-changed=COBRWYDD_RUST");
    println!("cargo::rerun-if-changed=build.rs");
    println!("cargo::rerun-if-changed=stand-ins");

    let here = PathBuf::from(env::var_os("CARGO_MANIFEST_DIR").unwrap());
    link_port(&here);
    let out = PathBuf::from(env::var_os("OUT_DIR").unwrap());
    let folder = match env::var_os("COBRWYDD_RUST") {
        Some(folder) => PathBuf::from(folder),
        None => here.join("../../shared/docs/src"),
    };
    let folder = folder.canonicalize().unwrap_or(folder);
    println!("cargo::rustc-env=COMPARE_ORIGINAL={}", folder.display());

    let tree = out.join("tree");
    let mut all_there = true;
    for file in ORIGINAL {
        let from = folder.join("src").join(file);
        println!("cargo::rerun-if-changed={}", from.display());
        all_there &= copy(&from, &tree.join(file));
    }
    if !all_there {
        fs::write(out.join("tree.rs"), "").unwrap();
        return;
    }
    for file in STAND_INS {
        let from = here.join("stand-ins").join(file);
        assert!(copy(&from, &tree.join(file)), "{} is missing", from.display());
    }
    for (module, text) in LEFT_OUT {
        fs::write(tree.join("local_search").join(format!("{module}.rs")), text).unwrap();
    }
    let mut root = String::new();
    for module in ["distance", "evaluation", "local_search", "models"] {
        let path = tree.join(module).join("mod.rs");
        root += &format!("#[path = {path:?}]\n#[allow(unused)]\nmod {module};\n");
    }
    fs::write(out.join("tree.rs"), root).unwrap();
    println!("cargo::rustc-cfg=original");
}

/// Links the port's archive; where it is not there the build ends and says what makes it.
fn link_port(here: &Path) {
    println!("cargo::rerun-if-env-changed=COBRWYDD_PORT");
    let archive = match env::var_os("COBRWYDD_PORT") {
        Some(archive) => PathBuf::from(archive),
        None => here.join("../crates/cobrwydd/out/libcobrwydd.a"),
    };
    println!("cargo::rerun-if-changed={}", archive.display());
    let Ok(archive) = archive.canonicalize() else {
        println!("cargo::error=the port is not in {}: run 'rt lib' in crates/cobrwydd first", archive.display());
        return;
    };
    let folder = archive.parent().unwrap().display();
    println!("cargo::rustc-link-search=native={folder}");
    if archive.extension().is_some_and(|end| end == "so") {
        println!("cargo::rustc-link-lib=dylib=cobrwydd");
        println!("cargo::rustc-link-arg=-Wl,-rpath,{folder}");
    } else {
        println!("cargo::rustc-link-lib=static=cobrwydd");
    }
}

/// Copies a file byte for byte, and says whether it was there.
fn copy(from: &Path, to: &Path) -> bool {
    let Ok(bytes) = fs::read(from) else {
        return false;
    };
    fs::create_dir_all(to.parent().unwrap()).unwrap();
    fs::write(to, bytes).unwrap();
    true
}
