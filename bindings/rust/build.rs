//! Says where libhmc.a is: in the folder that HMC_LIB_DIR names, or in this package, or where
//! `make -C bindings` leaves it, or where pkg-config finds it.
use std::env::var_os;
use std::path::PathBuf;
use std::process::Command;

fn by_pkg_config() -> Option<PathBuf> {
    let words = ["--variable=libdir", "hmc"];
    let said = Command::new("pkg-config").args(words).output().ok()?;
    let folder = PathBuf::from(String::from_utf8(said.stdout).ok()?.trim());
    said.status.success().then_some(folder)
}

fn main() {
    let here = PathBuf::from(var_os("CARGO_MANIFEST_DIR").expect("cargo sets it"));
    let beside = [here.join("lib"), here.join("../build")];
    let folder = var_os("HMC_LIB_DIR")
        .map(PathBuf::from)
        .or_else(|| beside.into_iter().find(|it| it.join("libhmc.a").is_file()))
        .or_else(by_pkg_config)
        .expect("no libhmc.a: run make -C bindings, install the library, or set HMC_LIB_DIR");
    println!("cargo:rustc-link-search=native={}", folder.display());
    println!("cargo:rerun-if-env-changed=HMC_LIB_DIR");
    println!("cargo:rerun-if-env-changed=PKG_CONFIG_PATH");
}
