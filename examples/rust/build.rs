//! Links the archives that the folder GAZ_LIB has: `libgaz_one.a`, and `libgaz_malloc.a` with the three functions of memory.

fn main() {
    println!("cargo:rerun-if-env-changed=GAZ_LIB");
    let folder = std::env::var("GAZ_LIB").unwrap_or_else(|_| "/usr/local/lib".to_string());
    println!("cargo:rustc-link-search=native={folder}");
    println!("cargo:rustc-link-lib=static=gaz_one");
    println!("cargo:rustc-link-lib=static=gaz_malloc");
    println!("cargo:rerun-if-changed={folder}/libgaz_one.a");
}
