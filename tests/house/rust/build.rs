// Links libhouse.a, which scripts/library writes. VUNDRELT_LIB names another folder that has it.
use std::env;
use std::path::PathBuf;

fn main() {
    let here = PathBuf::from(env::var("CARGO_MANIFEST_DIR").unwrap());
    let folder = match env::var("VUNDRELT_LIB") {
        Ok(given) => PathBuf::from(given),
        Err(_) => here.join("../../../target/staticlib"),
    };
    println!("cargo:rustc-link-search=native={}", folder.display());
    println!("cargo:rustc-link-lib=static=house");
    println!("cargo:rerun-if-changed={}", folder.join("libhouse.a").display());
    println!("cargo:rerun-if-env-changed=VUNDRELT_LIB");
}
