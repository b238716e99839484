//! Finds libhindsight: in the folder that HINDSIGHT_LIB_DIR names, else as pkg-config says.

use std::env;
use std::process::Command;

fn main() {
    println!("cargo:rerun-if-env-changed=HINDSIGHT_LIB_DIR");
    println!("cargo:rerun-if-env-changed=PKG_CONFIG_PATH");
    if let Ok(folder) = env::var("HINDSIGHT_LIB_DIR") {
        println!("cargo:rustc-link-search=native={folder}");
    } else {
        let asked = Command::new("pkg-config").args(["--libs-only-L", "hindsight"]).output();
        match asked {
            Ok(said) if said.status.success() => {
                for folder in String::from_utf8_lossy(&said.stdout).split_whitespace() {
                    println!("cargo:rustc-link-search=native={}", folder.trim_start_matches("-L"));
                }
            }
            _ => println!("cargo:warning=pkg-config knows no hindsight: set PKG_CONFIG_PATH or HINDSIGHT_LIB_DIR"),
        }
    }
    println!("cargo:rustc-link-lib=dylib=hindsight");
}
