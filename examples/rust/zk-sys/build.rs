//! Links libzk.a of the folder that LIBZK_DIR names; without it, the library that pkg-config finds.

use std::process::Command;

fn main() {
    println!("cargo:rerun-if-env-changed=LIBZK_DIR");
    println!("cargo:rerun-if-env-changed=PKG_CONFIG_PATH");
    if let Ok(folder) = std::env::var("LIBZK_DIR") {
        println!("cargo:rustc-link-search=native={folder}");
        println!("cargo:rustc-link-lib=static=zk");
        println!("cargo:rerun-if-changed={folder}/libzk.a");
        return;
    }
    println!("cargo:rustc-link-lib=zk");
    if let Ok(found) = Command::new("pkg-config")
        .args(["--libs-only-L", "zk"])
        .output()
    {
        // A blank in a folder's name has a backslash before it.
        let words = String::from_utf8_lossy(&found.stdout).replace("\\ ", "\0");
        for folder in words
            .split_whitespace()
            .filter_map(|word| word.strip_prefix("-L"))
        {
            let folder = folder.replace('\0', " ");
            println!("cargo:rustc-link-search=native={folder}");
        }
    }
}
