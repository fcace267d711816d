//! Makes a module of each published file, out of the folder that PUBLISHED names, in cargo's build folder. Height 13 is pe.rs as it
//! stands; for heights 6 to 12 the one line with BOOMERANG_NUM_STAGES has another number. `needed_6` to `needed_13` are the same with one
//! line more changed, so that no idle run is written.
use std::{env, fs, path::PathBuf};

const LINE: &str = "pub const BOOMERANG_NUM_STAGES: usize = 13;\n";

/// Where rule 8's loop goes on, and how it goes on by the rule of the needed runs: only while a needed waiting pin is left.
const EVERY: &str = "    while spaces_j < spaces.len() &&\n";
const NEEDED: &str = "    while spaces_j < spaces.len() && endpt_lvl1_i < endpoints_lvl1.len() &&\n";

fn main() {
    println!("cargo:rerun-if-changed=build.rs");
    println!("cargo:rerun-if-env-changed=PUBLISHED");
    let published = PathBuf::from(env::var("PUBLISHED").expect("PUBLISHED is not set: build by oracle/run"));
    let out = PathBuf::from(env::var("OUT_DIR").unwrap());
    let read = |name: &str| {
        let path = published.join(format!("{name}.rs"));
        println!("cargo:rerun-if-changed={}", path.display());
        fs::read_to_string(&path).unwrap_or_else(|e| panic!("{}: {e}", path.display()))
    };
    let mut modules = String::new();
    let mut put = |name: &str, text: &str| {
        let path = out.join(format!("{name}.rs"));
        fs::write(&path, text).unwrap();
        modules += &format!("#[allow(warnings)]\n#[path = {:?}]\npub mod {name};\n", path.to_str().unwrap());
    };
    for name in ["aigpdk", "aig", "staging"] {
        put(name, &read(name));
    }
    let pe = read("pe");
    assert_eq!((pe.matches(LINE).count(), pe.matches(EVERY).count()), (1, 1));
    for k in 6..=13 {
        let every = pe.replace(LINE, &LINE.replace("13", &k.to_string()));
        put(&format!("height_{k}"), &every);
        put(&format!("needed_{k}"), &every.replace(EVERY, NEEDED));
    }
    fs::write(out.join("published.rs"), modules).unwrap();
}
