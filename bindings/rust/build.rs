//! Links `librc4hmac.a`, from the folder in `RC4HMAC_LIB_DIR` if that is set
//! (a relative one counts from this crate), else from where `rt` writes it.

use std::env;
use std::path::Path;
use std::process;

fn main() {
    println!("cargo:rerun-if-changed=build.rs");
    println!("cargo:rerun-if-env-changed=RC4HMAC_LIB_DIR");

    let manifest_dir = env::var_os("CARGO_MANIFEST_DIR").unwrap_or_default();
    let manifest_dir = Path::new(&manifest_dir);
    let folder = match env::var_os("RC4HMAC_LIB_DIR") {
        Some(folder) => manifest_dir.join(folder),
        None => manifest_dir.join("../../crates/rc4hmac/out"),
    };

    let archive = folder.join("librc4hmac.a");
    println!("cargo:rerun-if-changed={}", archive.display());
    if !archive.is_file() {
        eprintln!(
            "There is no librc4hmac.a in {}: run `rt lib` in crates/rc4hmac first.",
            folder.display()
        );
        process::exit(1);
    }

    println!("cargo:rustc-link-search=native={}", folder.display());
    println!("cargo:rustc-link-lib=static=rc4hmac");
}
