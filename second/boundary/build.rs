//! Hands the library under test to the linker, and the faults between, if any.

fn main() {
    println!("cargo:rerun-if-changed=build.rs");
    println!("cargo:rerun-if-env-changed=ZIMAROLFO_LIBRARY");
    let library = std::env::var("ZIMAROLFO_LIBRARY")
        .expect("ZIMAROLFO_LIBRARY names the static library to be tested");
    println!("cargo:rerun-if-changed={library}");
    println!("cargo:rerun-if-env-changed=ZIMAROLFO_FAULTS");
    if let Ok(faults) = std::env::var("ZIMAROLFO_FAULTS") {
        println!("cargo:rerun-if-changed={faults}");
        println!("cargo:rustc-link-arg={faults}");
        println!("cargo:rustc-link-arg=-Wl,--wrap=zimarolfo_row,--wrap=zimarolfo_packed_row,--wrap=zimarolfo_band");
    }
    println!("cargo:rustc-link-arg={library}");
}
