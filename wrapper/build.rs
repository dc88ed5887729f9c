//! Links the proved library: that of the folder in HECHROUNG_LIB, else target/lib of the repository that this package
//! stands in, else the one that pkg-config knows (Debian's libhechroung-dev, or tools/install).

use std::env;
use std::path::{Path, PathBuf};
use std::process::Command;

/// The layout of include/hechroung.h, HECHROUNG_ABI, that src/raw.rs is written for.
const LAYOUT: &str = "4";

fn main() {
    println!("cargo:rustc-env=HECHROUNG_LAYOUT={LAYOUT}");
    println!("cargo:rerun-if-env-changed=HECHROUNG_LIB");
    println!("cargo:rerun-if-env-changed=PKG_CONFIG_PATH");
    println!("cargo:rerun-if-env-changed=DOCS_RS");
    println!("cargo:rerun-if-changed=build.rs");
    name_core_error();
    // Where documents are made there is no library, and nothing is linked.
    if env::var_os("DOCS_RS").is_none() {
        link();
    }
}

fn link() {
    let folder = named().or_else(own).or_else(installed).expect(
        "libhechroung.a is missing: tools/library of the repository builds it, Debian's libhechroung-dev brings it, \
         and HECHROUNG_LIB may name its folder",
    );
    let archive = folder.join("libhechroung.a");
    println!("cargo:rerun-if-changed={}", archive.display());
    println!("cargo:rustc-link-search=native={}", folder.display());
    println!("cargo:rustc-link-lib=static=hechroung");
}

fn named() -> Option<PathBuf> {
    let folder = PathBuf::from(env::var_os("HECHROUNG_LIB")?);
    assert!(
        has_archive(&folder),
        "HECHROUNG_LIB names {}, where no libhechroung.a is",
        folder.display()
    );
    Some(folder)
}

fn own() -> Option<PathBuf> {
    let package = env::var_os("CARGO_MANIFEST_DIR").expect("cargo sets it");
    let folder = PathBuf::from(package).join("../target/lib");
    has_archive(&folder).then_some(folder)
}

fn installed() -> Option<PathBuf> {
    let folder = PathBuf::from(known("libdir")?);
    let layout = known("abi")?;
    assert!(
        layout == LAYOUT,
        "the library that is installed has layout {layout}, and this package is for layout {LAYOUT}"
    );
    has_archive(&folder).then_some(folder)
}

fn has_archive(folder: &Path) -> bool {
    folder.join("libhechroung.a").exists()
}

/// A variable of hechroung.pc.
fn known(variable: &str) -> Option<String> {
    let word = format!("--variable={variable}");
    said(Command::new("pkg-config").args([&word, "hechroung"]))
}

fn said(command: &mut Command) -> Option<String> {
    let output = command.output().ok().filter(|it| it.status.success())?;
    let text = String::from_utf8(output.stdout).ok()?;
    Some(text.trim().to_owned()).filter(|it| !it.is_empty())
}

/// Rust has the trait Error in core from 1.81 on.
fn name_core_error() {
    let rustc = env::var_os("RUSTC").expect("cargo sets it");
    let version = said(Command::new(rustc).arg("--version")).unwrap_or_default();
    let minor = version.split('.').nth(1).and_then(|it| it.parse().ok());
    let minor: u32 = minor.unwrap_or(0);
    if minor >= 80 {
        println!("cargo:rustc-check-cfg=cfg(core_error)");
    }
    if minor >= 81 {
        println!("cargo:rustc-cfg=core_error");
    }
}
