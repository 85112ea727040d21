//! Links the static library that `bench/build` leaves in `target/staticlib`.
fn main() {
    let root = std::env::var("CARGO_MANIFEST_DIR").expect("cargo names the folder of the package");
    let folder = format!("{root}/../target/staticlib");
    println!("cargo::rustc-link-search=native={folder}");
    println!("cargo::rustc-link-lib=static=bench_driver");
    println!("cargo::rerun-if-changed={folder}/libbench_driver.a");
}
