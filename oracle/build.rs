//! Links our own library if its feature is on.

fn main() {
    println!("cargo::rerun-if-env-changed=ARCHIVES");
    if std::env::var_os("CARGO_FEATURE_SERVICE").is_some() {
        let folder = std::env::var("ARCHIVES").expect("ARCHIVES is the archive's folder");
        println!("cargo::rerun-if-changed={folder}/libservice.a");
        println!("cargo::rustc-link-search=native={folder}");
        println!("cargo::rustc-link-lib=static=service");
    }
}
