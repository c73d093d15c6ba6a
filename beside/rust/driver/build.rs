//! Links the proved libraries: the port's, which `tools/built vurdellow` and `tools/built test_calls` make, and the mirror's,
//! which `tools/built theseus_calls` makes.

fn main() {
    let folder = concat!(env!("CARGO_MANIFEST_DIR"), "/../../../target/staticlib");
    println!("cargo:rustc-link-search=native={folder}");
    for library in ["vurdellow", "test_calls", "theseus_calls"] {
        println!("cargo:rerun-if-changed={folder}/lib{library}.a");
        println!("cargo:rustc-link-lib=static={library}");
    }
}
