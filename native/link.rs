/// Has cargo link the library: VARTRYMOY_LIBRARY is the path that `native/build library` prints.
fn link_library() {
    println!("cargo:rerun-if-env-changed=VARTRYMOY_LIBRARY");
    let archive = std::env::var("VARTRYMOY_LIBRARY")
        .expect("VARTRYMOY_LIBRARY is not set: it is the path that `native/build library` prints");
    let folder = std::path::Path::new(&archive)
        .parent()
        .expect("VARTRYMOY_LIBRARY is a file's path");
    println!("cargo:rerun-if-changed={archive}");
    println!("cargo:rustc-link-search=native={}", folder.display());
    println!("cargo:rustc-link-lib=static=vartrymoy");
}
