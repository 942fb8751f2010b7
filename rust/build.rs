//! Where the proved libraries are: the folder that WALZHIK_LIB names, else target/staticlib of the tree that this crate stands in.

use std::path::PathBuf;

fn main() {
    println!("cargo:rerun-if-env-changed=WALZHIK_LIB");
    let folder = match std::env::var_os("WALZHIK_LIB") {
        Some(folder) => PathBuf::from(folder),
        None => PathBuf::from(env!("CARGO_MANIFEST_DIR")).join("../target/staticlib"),
    };
    for library in ["libwalzhik.a", "libwalzhik_indices.a"] {
        let archive = folder.join(library);
        println!("cargo:rerun-if-changed={}", archive.display());
        assert!(
            archive.exists(),
            "no {library} in {}: build it with .ci/build walzhik walzhik_indices, or set WALZHIK_LIB",
            folder.display()
        );
    }
    println!("cargo:rustc-link-search=native={}", folder.display());
}
