// The plain C that bench/run compiles, beside the proved libraries, which come with the crate of the tests.
fn main() {
    println!("cargo:rerun-if-env-changed=PROFILE_LIBRARIES");
    let folder = std::env::var("PROFILE_LIBRARIES").expect("bench/run sets it");
    println!("cargo:rustc-link-search=native={folder}");
    println!("cargo:rustc-link-lib=static=plain");
    println!("cargo:rerun-if-changed={folder}/libplain.a");
}
