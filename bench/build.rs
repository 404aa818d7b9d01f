//! Links what `tools/build bench_kernels` writes; the product's own library comes with tests/bindings.
fn main() {
    let libraries = format!("{}/../target/staticlib", env!("CARGO_MANIFEST_DIR"));
    println!("cargo:rustc-link-search=native={libraries}");
    println!("cargo:rustc-link-lib=static=bench_kernels");
    println!("cargo:rerun-if-changed={libraries}/libbench_kernels.a");
}
