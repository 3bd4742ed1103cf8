//! Links libhe: from the folder HE_LIB_DIR if that is set, else from where pkg-config says that `he` is.
use std::env;
use std::process::Command;

fn main() {
    println!("cargo:rerun-if-env-changed=HE_LIB_DIR");
    println!("cargo:rerun-if-env-changed=PKG_CONFIG_PATH");
    let folder = env::var("HE_LIB_DIR").ok().or_else(folder_of_pkg_config);
    if let Some(folder) = folder {
        println!("cargo:rustc-link-search=native={folder}");
    }
    println!("cargo:rustc-link-lib=he");
}

fn folder_of_pkg_config() -> Option<String> {
    let said = Command::new("pkg-config").args(["--variable=libdir", "he"]).output().ok()?;
    let folder = String::from_utf8(said.stdout).ok()?.trim().to_owned();
    (said.status.success() && !folder.is_empty()).then_some(folder)
}
