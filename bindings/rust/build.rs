//! Tells where `libzar.a` is: in the folder that ZAR_LIBRARY_DIR names, else in that of pkg-config.
use std::env;
use std::process::Command;

fn main() {
    println!("cargo:rerun-if-env-changed=ZAR_LIBRARY_DIR");
    let folder = env::var("ZAR_LIBRARY_DIR").unwrap_or_else(|_| folder_of_pkg_config());
    println!("cargo:rustc-link-search=native={folder}");
    println!("cargo:rustc-link-lib=static=zar");
}

fn folder_of_pkg_config() -> String {
    let told = Command::new("pkg-config").args(["--variable=libdir", "zar"]).output();
    match told {
        Ok(told) if told.status.success() => String::from_utf8_lossy(&told.stdout).trim().to_owned(),
        _ => panic!("pkg-config does not know zar: name the folder of libzar.a by ZAR_LIBRARY_DIR"),
    }
}
