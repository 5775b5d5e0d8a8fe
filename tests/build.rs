// The static libraries that `tools/staticlibs` wrote; the benchmark names a folder of its own.
fn main() {
    let root = std::env::var("CARGO_MANIFEST_DIR").unwrap();
    println!("cargo:rerun-if-env-changed=PROFILE_LIBRARIES");
    let folder = std::env::var("PROFILE_LIBRARIES").unwrap_or(format!("{root}/../target/staticlib"));
    println!("cargo:rustc-link-search=native={folder}");
    for name in ["pod", "probe"] {
        println!("cargo:rustc-link-lib=static={name}");
        println!("cargo:rerun-if-changed={folder}/lib{name}.a");
    }
}
