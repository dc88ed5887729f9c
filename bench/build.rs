//! Links FLINT and the few functions over it that bench/run has built into the folder BENCH_LIB. Without that folder
//! nothing is linked: bench/versus needs neither.

use std::env;

fn main() {
    println!("cargo:rerun-if-env-changed=BENCH_LIB");
    let Ok(folder) = env::var("BENCH_LIB") else {
        return;
    };
    println!("cargo:rerun-if-changed={folder}/libproduct.a");
    println!("cargo:rustc-link-search=native={folder}");
    println!("cargo:rustc-link-lib=static=product");
    for library in ["flint", "gmp", "m"] {
        println!("cargo:rustc-link-lib={library}");
    }
}
