// Links the proved archive, libroutes.a: from the folder that ROUTES_LIB_DIR names, else from target/lib, where `make archive`
// writes it. Where it isn't there, everything but linking works, and linking fails with a sentence.
use std::path::PathBuf;

const MISSING: &str = "routes, for libroutes.a is not there. Run `make archive` in the folder of the project, \
    or set ROUTES_LIB_DIR to the folder that has it";

fn main() {
    println!("cargo:rerun-if-env-changed=ROUTES_LIB_DIR");
    let own = PathBuf::from(std::env::var_os("CARGO_MANIFEST_DIR").expect("cargo names the crate's folder"));
    let folder = std::env::var_os("ROUTES_LIB_DIR").map_or(own.join("../target/lib"), PathBuf::from);
    let archive = folder.join("libroutes.a");
    println!("cargo:rerun-if-changed={}", archive.display());
    if archive.exists() {
        println!("cargo:rustc-link-search=native={}", folder.display());
        println!("cargo:rustc-link-lib=static=routes");
        return;
    }
    println!(
        "cargo:warning={} isn't there: `make archive` proves and writes it. Nothing can be linked until then",
        archive.display()
    );
    // A library of that name is asked for, so that the linker says it.
    println!("cargo:rustc-link-lib=dylib={MISSING}");
}
