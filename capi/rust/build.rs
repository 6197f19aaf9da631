//! Links libwasmloop.a: from the folder that WASMLOOP_FOLDER names, or as it comes with this crate or in the repository's dist/, or else
//! as pkg-config finds it.
use std::env;
use std::path::Path;
use std::process::Command;

/// The folder in which pkg-config says that the library is.
fn installed() -> Option<String> {
    let told = Command::new("pkg-config").args(["--variable=libdir", "wasmloop"]).output().ok()?;
    let folder = String::from_utf8(told.stdout).ok()?.trim().to_string();
    if told.status.success() && !folder.is_empty() { Some(folder) } else { None }
}

fn main() {
    let here = env::var("CARGO_MANIFEST_DIR").unwrap();
    let shipped = [here.clone(), format!("{here}/../../dist")].into_iter().find(|it| Path::new(it).join("libwasmloop.a").is_file());
    let named = env::var("WASMLOOP_FOLDER").ok();
    let folder = named.or(shipped).or_else(installed).expect("WASMLOOP_FOLDER or pkg-config names the folder of libwasmloop.a");
    println!("cargo:rustc-link-search=native={folder}");
    println!("cargo:rustc-link-lib=static=wasmloop");
    println!("cargo:rerun-if-env-changed=WASMLOOP_FOLDER");
    println!("cargo:rerun-if-changed={folder}/libwasmloop.a");
}
