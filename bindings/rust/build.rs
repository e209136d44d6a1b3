//! Finds libnrbpf: in the folder that `NRBPF_LIB_DIR` names, where its `libnrbpf.a` goes before `libnrbpf.so`; else by pkg-config; else where the linker looks.

use std::env;
use std::path::Path;
use std::process::Command;

const TO_DO: &str = "install nrbpf (libnrbpf-dev), set PKG_CONFIG_PATH to the folder of nrbpf.pc, or NRBPF_LIB_DIR to that of libnrbpf.a";

/// The folders that pkg-config names for version 2, from 2.7 on. If it names none the linker may still find the library, so the build goes on with a warning.
fn folders() -> String {
    let pkg_config = env::var("PKG_CONFIG").unwrap_or_else(|_| "pkg-config".to_owned());
    match Command::new(&pkg_config).args(["--libs-only-L", "nrbpf >= 2.7", "nrbpf < 3"]).output() {
        Ok(found) if found.status.success() => return String::from_utf8_lossy(&found.stdout).into_owned(),
        Ok(_) => println!("cargo:warning={pkg_config} finds no nrbpf of version 2.7 or a later 2: {TO_DO}"),
        Err(why) => println!("cargo:warning={pkg_config} can't be called ({why}), so nrbpf is looked for where the linker looks: {TO_DO}"),
    }
    String::new()
}

fn main() {
    println!("cargo:rerun-if-changed=build.rs");
    for name in ["NRBPF_LIB_DIR", "PKG_CONFIG", "PKG_CONFIG_PATH", "PKG_CONFIG_LIBDIR", "PKG_CONFIG_SYSROOT_DIR"] {
        println!("cargo:rerun-if-env-changed={name}");
    }
    let mut kind = "dylib";
    if let Ok(folder) = env::var("NRBPF_LIB_DIR") {
        let (archive, shared) = (Path::new(&folder).join("libnrbpf.a"), Path::new(&folder).join("libnrbpf.so"));
        if archive.exists() {
            kind = "static";
            println!("cargo:rerun-if-changed={}", archive.display());
        } else if !shared.exists() {
            println!("cargo:warning=NRBPF_LIB_DIR is {folder}, where there is no libnrbpf.a and no libnrbpf.so: {TO_DO}");
        }
        println!("cargo:rustc-link-search=native={folder}");
    } else {
        for folder in folders().split_whitespace() {
            println!("cargo:rustc-link-search=native={}", folder.trim_start_matches("-L"));
        }
    }
    println!("cargo:rustc-link-lib={kind}=nrbpf");
}
