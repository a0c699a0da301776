//! Finds libplistconv: in the folder that PLISTCONV_LIBDIR names, else where pkg-config says, else where the linker
//! looks anyway. It is linked statically if PLISTCONV_STATIC is set.
use std::{env, process::Command};

/// Returns the folder of the library, if there is a pkg-config that knows it.
fn folder_of_pkg_config() -> Option<String> {
    let output = Command::new("pkg-config")
        .args(["--variable=libdir", "plistconv"])
        .output()
        .ok()?;
    let folder = String::from_utf8(output.stdout).ok()?;
    (output.status.success() && !folder.trim().is_empty()).then(|| folder.trim().to_string())
}

fn main() {
    for name in ["PLISTCONV_LIBDIR", "PLISTCONV_STATIC", "PKG_CONFIG_PATH"] {
        println!("cargo:rerun-if-env-changed={name}");
    }
    if let Some(folder) = env::var("PLISTCONV_LIBDIR")
        .ok()
        .or_else(folder_of_pkg_config)
    {
        println!("cargo:rustc-link-search=native={folder}");
    }
    let kind = if env::var_os("PLISTCONV_STATIC").is_some() {
        "static"
    } else {
        "dylib"
    };
    println!("cargo:rustc-link-lib={kind}=plistconv");
}
