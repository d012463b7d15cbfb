// The folder with libaccesskit_proved.a is the one that ACCESSKIT_PROVED_LIB names, as lib/ after `./build --library`; or else this
// crate's own lib/, which a release has.
use std::path::PathBuf;

fn main() {
    println!("cargo:rerun-if-env-changed=ACCESSKIT_PROVED_LIB");
    let own = || PathBuf::from(std::env::var_os("CARGO_MANIFEST_DIR").expect("cargo names this crate's folder")).join("lib");
    let folder = std::env::var_os("ACCESSKIT_PROVED_LIB").map_or_else(own, PathBuf::from);
    let archive = folder.join("libaccesskit_proved.a");
    assert!(archive.exists(), "there is no {}: ACCESSKIT_PROVED_LIB names its folder", archive.display());
    println!("cargo:rerun-if-changed={}", archive.display());
    println!("cargo:rustc-link-search=native={}", folder.display());
    println!("cargo:rustc-link-lib=static=accesskit_proved");
}
