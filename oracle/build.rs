//! Links LIBRARY, the proved one.
fn main() {
    println!("cargo:rerun-if-changed=build.rs");
    println!("cargo:rerun-if-env-changed=LIBRARY");
    let library = std::env::var("LIBRARY").expect("LIBRARY is not set: build by oracle/run");
    println!("cargo:rerun-if-changed={library}");
    println!("cargo:rustc-link-arg={library}");
}
