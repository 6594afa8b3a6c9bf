//! Links libstation.a, from the folder that STATION names or from where `make lib` puts it.
fn main() {
    let folder = std::env::var("STATION").unwrap_or_else(|_| {
        format!("{}/../../target/staticlib", std::env::var("CARGO_MANIFEST_DIR").unwrap())
    });
    println!("cargo:rustc-link-search=native={folder}");
    println!("cargo:rustc-link-lib=static=station");
    println!("cargo:rerun-if-env-changed=STATION");
    println!("cargo:rerun-if-changed={folder}/libstation.a");
}
