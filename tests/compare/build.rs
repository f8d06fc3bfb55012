fn main() {
    let here = std::env::var("CARGO_MANIFEST_DIR").expect("set by cargo");
    println!("cargo:rustc-link-search=native={here}/../../target/staticlib");
    println!("cargo:rustc-link-lib=static=founded");
    println!("cargo:rerun-if-changed={here}/../../target/staticlib/libfounded.a");
}
