// Links the library's static archive, libtrm.a, from target/staticlib at the repository's root.
// Paper: nothing; this is about the build.
// TRM_ARCHIVE names another folder that has libtrm.a.
use std::env;
use std::path::Path;

fn main() {
    let root = Path::new(env!("CARGO_MANIFEST_DIR")).join("../..");
    let usual = root.join("target/staticlib").display().to_string();
    let folder = env::var("TRM_ARCHIVE").unwrap_or(usual);
    let archive = format!("{folder}/libtrm.a");
    assert!(Path::new(&archive).exists(), "no {archive}: make it with `tools/archive`");
    println!("cargo:rustc-link-search=native={folder}");
    println!("cargo:rustc-link-lib=static=trm");
    println!("cargo:rerun-if-changed={archive}");
    println!("cargo:rerun-if-env-changed=TRM_ARCHIVE");
}
