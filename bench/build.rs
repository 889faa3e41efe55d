//! Links the static libraries that `make bench` puts there.
fn main() {
    let folder = format!("{}/../target/staticlib", std::env::var("CARGO_MANIFEST_DIR").unwrap());
    println!("cargo:rerun-if-changed=build.rs");
    println!("cargo:rustc-link-search=native={folder}");
    for library in ["bench_receive", "bench_octets", "bench_check", "bench_calls"] {
        println!("cargo:rerun-if-changed={folder}/lib{library}.a");
        println!("cargo:rustc-link-lib=static={library}");
    }
}
