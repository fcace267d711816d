//! Links LIBRARY, the proved one.
fn main() {
    println!("cargo:rerun-if-changed=build.rs");
    println!("cargo:rerun-if-env-changed=LIBRARY");
    match std::env::var("LIBRARY") {
        Ok(library) => {
            println!("cargo:rerun-if-changed={library}");
            println!("cargo:rustc-link-arg={library}");
        }
        Err(_) => println!("cargo:warning=LIBRARY is not set: build by tool/build"),
    }
}
