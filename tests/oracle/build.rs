//! Places the Rust modules of docs/src for the compiler, unchanged, with wrappers appended for
//! private functions, and names the static library to link. tests/fuzz and benches are built by
//! this file too; folders are named as seen from the repository.

use std::path::{Path, PathBuf};
use std::{env, fs};

const RUST: &str = "docs/src/mssql-mock-tds/src";
const WRAPPERS: &str = "tests/oracle/wrappers";
const LIBRARY: &str = "target/staticlib";
const GROUPS: [&str; 8] =
    ["HEADER", "TEXT", "REQUEST", "LOGIN", "RESULT", "RESPONSE", "CAPTURE", "LABELS"];

/// The modules, with the FNV-1a sums of their files as they were published.
const MODULES: [(&str, u64); 2] =
    [("protocol", 0x5725_866C_7A33_FA46), ("query_response", 0x12A5_0577_8FA0_5A20)];

fn main() {
    let root = root();
    let out = PathBuf::from(env::var("OUT_DIR").unwrap());
    println!("cargo:rerun-if-changed={}", root.join("tests/oracle/build.rs").display());
    let declared = MODULES.map(|(module, sum)| place(&root, &out, module, sum));
    fs::write(out.join("rust_modules.rs"), declared.concat()).unwrap();
    link_station(&root);
}

/// The repository's folder, which has the file of the crates.
fn root() -> PathBuf {
    let here = PathBuf::from(env::var("CARGO_MANIFEST_DIR").unwrap());
    let root = here.ancestors().find(|folder| folder.join("crates.txt").exists());
    root.expect("a folder of the repository").to_path_buf()
}

/// Writes the module's text with its wrappers after it, and answers its declaration.
/// A copy is compiled, so that no tool that follows modules comes upon docs/src.
fn place(root: &Path, out: &Path, module: &str, sum: u64) -> String {
    let file = format!("{module}.rs");
    let original = read(&root.join(RUST).join(&file));
    let found = fnv(&original);
    assert_eq!(found, sum, "docs/src: {file} was changed (its sum is {found:#018X})");
    let placed = out.join(&file);
    let wrappers = root.join(WRAPPERS).join(&file);
    let wrappers = if wrappers.exists() { read(&wrappers) } else { Vec::new() };
    fs::write(&placed, [original.clone(), wrappers].concat()).unwrap();
    assert!(fs::read(&placed).unwrap().starts_with(&original), "{file} was not placed unchanged");
    format!("#[allow(dead_code)]\n#[path = {placed:?}]\nmod {module};\n")
}

/// Links libstation.a where a group of comparisons is built in.
fn link_station(root: &Path) {
    println!("cargo:rerun-if-env-changed=STATION_LIB_DIR");
    if !GROUPS.iter().any(|group| env::var_os(format!("CARGO_FEATURE_{group}")).is_some()) {
        return;
    }
    let folder = env::var_os("STATION_LIB_DIR").map_or_else(|| root.join(LIBRARY), PathBuf::from);
    let archive = folder.join("libstation.a");
    println!("cargo:rerun-if-changed={}", archive.display());
    if !archive.exists() {
        println!("cargo::error=there is no {}: tools/build station", archive.display());
    }
    println!("cargo:rustc-link-search=native={}", folder.display());
    println!("cargo:rustc-link-lib=static=station");
}

fn read(file: &Path) -> Vec<u8> {
    println!("cargo:rerun-if-changed={}", file.display());
    fs::read(file).unwrap_or_else(|error| panic!("{}: {error}", file.display()))
}

fn fnv(bytes: &[u8]) -> u64 {
    bytes.iter().fold(0xCBF2_9CE4_8422_2325, |sum, byte| {
        (sum ^ u64::from(*byte)).wrapping_mul(0x0000_0100_0000_01B3)
    })
}
