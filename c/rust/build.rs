//! Links libpim and the C library's malloc for it, from the folder PIM_LIB_DIR, or from where `make` put them.

fn main() {
    let made = format!("{}/../out", std::env::var("CARGO_MANIFEST_DIR").unwrap());
    let folder = std::env::var("PIM_LIB_DIR").unwrap_or(made);
    println!("cargo:rerun-if-env-changed=PIM_LIB_DIR");
    println!("cargo:rerun-if-changed={folder}/libpim.a");
    println!("cargo:rustc-link-search=native={folder}");
    println!("cargo:rustc-link-lib=static=pim");
    println!("cargo:rustc-link-lib=static=pim_malloc");
}
