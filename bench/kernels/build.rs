// Links the static library of our functions, and what it needs of the kit.
fn main() {
    for name in ["OURS", "KIT"] {
        println!("cargo:rerun-if-env-changed={name}");
    }
    let ours = std::env::var("OURS").expect("OURS: the folder of libmem_exports.a");
    let kit = std::env::var("KIT").expect("KIT: the kit's folder");
    println!("cargo:rerun-if-changed={ours}/libmem_exports.a");
    println!("cargo:rustc-link-search=native={ours}");
    println!("cargo:rustc-link-search=native={kit}/c");
    println!("cargo:rustc-link-lib=static=mem_exports");
    println!("cargo:rustc-link-lib=static=os_c");
    println!("cargo:rustc-link-lib=static=libc_c");
}
