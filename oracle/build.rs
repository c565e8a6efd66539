//! With the feature `library`: where the proved engine's static libraries are.

fn main() {
    println!("cargo:rerun-if-changed=build.rs");
    println!("cargo:rerun-if-env-changed=DESTINATION_LIBRARY");
    if std::env::var_os("CARGO_FEATURE_LIBRARY").is_some() {
        let folder = std::env::var("DESTINATION_LIBRARY").expect("DESTINATION_LIBRARY names a folder");
        println!("cargo:rustc-link-search=native={folder}");
        println!("cargo:rerun-if-changed={folder}/libdestination.a");
        println!("cargo:rerun-if-changed={folder}/libstation.a");
    }
}
