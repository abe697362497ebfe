//! Links the archive `libgrodvejas.a` where the program is for x86-64 Linux and the archive is there: in the folder that GRODVEJAS_LIB names, or
//! else in ../../target/staticlib, where `scripts/archive` writes it. Without it the crate compiles all the same (`grodvejas::AVAILABLE`).
use std::env;
use std::path::PathBuf;

fn folder() -> PathBuf {
    println!("cargo:rerun-if-env-changed=GRODVEJAS_LIB");
    match env::var_os("GRODVEJAS_LIB") {
        Some(named) => PathBuf::from(named),
        None => PathBuf::from(env::var_os("CARGO_MANIFEST_DIR").unwrap_or_default()).join("../../target/staticlib"),
    }
}

fn target_is(what: &str, value: &str) -> bool {
    env::var(format!("CARGO_CFG_TARGET_{what}")).is_ok_and(|is| is == value)
}

fn main() {
    let folder = folder();
    let archive = folder.join("libgrodvejas.a");
    println!("cargo:rerun-if-changed={}", archive.display());
    println!("cargo:rustc-check-cfg=cfg(grodvejas_linked)");
    if !(target_is("ARCH", "x86_64") && target_is("OS", "linux")) {
        println!("cargo:warning=the archive is for x86-64 Linux: every call answers that it is unavailable");
    } else if !archive.is_file() {
        println!("cargo:warning=there is no libgrodvejas.a (GRODVEJAS_LIB, or `scripts/archive`): every call answers that it is unavailable");
    } else {
        println!("cargo:rustc-link-search=native={}", folder.display());
        println!("cargo:rustc-link-lib=static=grodvejas");
        println!("cargo:rustc-cfg=grodvejas_linked");
    }
}
