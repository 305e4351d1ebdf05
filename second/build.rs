//! Where the programs that run beside the proved code find its archive: in the
//! folder that SCRIEVE_ARCHIVE names. Everything else needs none.

fn main() {
    println!("cargo:rerun-if-changed=build.rs");
    println!("cargo:rerun-if-env-changed=SCRIEVE_ARCHIVE");
    if std::env::var_os("CARGO_FEATURE_ARCHIVE").is_some() {
        let folder =
            std::env::var("SCRIEVE_ARCHIVE").expect("SCRIEVE_ARCHIVE: the archive's folder");
        println!("cargo:rerun-if-changed={folder}/libabi.a");
        println!("cargo:rustc-link-search=native={folder}");
    }
}
