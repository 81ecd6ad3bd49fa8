// Links the library for C.
fn main() {
    println!("cargo:rerun-if-env-changed=LIBRARY");
    let library = std::env::var("LIBRARY").expect("LIBRARY: the folder of libjillapun.a");
    println!("cargo:rerun-if-changed={library}/libjillapun.a");
    println!("cargo:rustc-link-search=native={library}");
    println!("cargo:rustc-link-lib=static=jillapun");
}
