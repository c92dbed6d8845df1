//! Links the static library of the proved code, and the few C functions below its allocator.

fn main() {
    let folder = std::env::var("RATTLE_STATICLIB").expect("run this by the command `tools/bench`");
    println!("cargo:rustc-link-search=native={folder}");
    println!("cargo:rustc-link-lib=static=boundary");
    let kit = std::env::var("RATTLE_C").expect("run this by the command `tools/bench`");
    println!("cargo:rustc-link-search=native={kit}");
    println!("cargo:rustc-link-lib=static=libc_c");
    println!("cargo:rerun-if-env-changed=RATTLE_STATICLIB");
    println!("cargo:rerun-if-changed={folder}/libboundary.a");
}
