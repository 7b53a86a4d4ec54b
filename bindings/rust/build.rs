//! Finds the library and the data: in the prefix ICU_NORMALIZER_PREFIX, or as `tools/install` installs what `rt lib`
//! built, or a release. The data are the prepared ones, or Unicode's files if the prefix has none.
use std::env;
use std::path::{Path, PathBuf};
use std::process::Command;

fn main() {
    println!("cargo:rerun-if-env-changed=ICU_NORMALIZER_PREFIX");
    let prefix = match env::var_os("ICU_NORMALIZER_PREFIX") {
        Some(prefix) => PathBuf::from(prefix),
        None => installed(),
    };
    for library in ["lib", "lib64", "lib/x86_64-linux-gnu"] {
        println!("cargo:rustc-link-search=native={}", prefix.join(library).display());
    }
    println!("cargo:rustc-link-lib=static=icu_normalizer");
    let data = prefix.join("share/uninorm");
    println!("cargo:rustc-env=ICU_NORMALIZER_DATA={}", data.display());
    println!("cargo:rustc-check-cfg=cfg(has_prepared_data)");
    if data.join("prepared").exists() {
        println!("cargo:rustc-cfg=has_prepared_data");
    }
}

fn installed() -> PathBuf {
    let root = Path::new(&env::var("CARGO_MANIFEST_DIR").unwrap()).join("../..");
    for made in [
        "crates/icu_normalizer_c/out/libicu_normalizer_c.a",
        "out/release/libicu_normalizer.a",
    ] {
        println!("cargo:rerun-if-changed={}", root.join(made).display());
    }
    let room = PathBuf::from(env::var("OUT_DIR").unwrap()).join("installed");
    let status = Command::new(root.join("tools/install"))
        .arg("/usr")
        .env("DESTDIR", &room)
        .env_remove("LIBDIR")
        .status();
    match status {
        Ok(status) if status.success() => room.join("usr"),
        _ => panic!("set ICU_NORMALIZER_PREFIX, or run `rt lib --cpu x86-64` in crates/icu_normalizer_c first"),
    }
}
