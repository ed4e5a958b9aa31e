//! Finds libjuqhanep.a: in the folder that JUQHANEP_FOLDER names, or in the builds of the repository that this is a part of (tools/library.sh).
use std::path::PathBuf;

fn main() {
    println!("cargo:rerun-if-env-changed=JUQHANEP_FOLDER");
    let build = PathBuf::from(env!("CARGO_MANIFEST_DIR")).join("../../build");
    let near = [build.join("library"), build.join("unproved/library")];
    let folder = std::env::var("JUQHANEP_FOLDER")
        .map(PathBuf::from)
        .ok()
        .or_else(|| near.into_iter().find(|folder| folder.join("libjuqhanep.a").exists()))
        .expect("libjuqhanep.a isn't there: make it by tools/library.sh, or name its folder by JUQHANEP_FOLDER");
    println!("cargo:rerun-if-changed={}", folder.join("libjuqhanep.a").display());
    println!("cargo:rustc-link-search=native={}", folder.display());
    println!("cargo:rustc-link-lib=static=juqhanep");
}
