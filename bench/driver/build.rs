//! Links the proved archives, which `scripts/archive` puts there.
fn main() {
    let archives = format!("{}/../../target/staticlib", std::env::var("CARGO_MANIFEST_DIR").expect("cargo sets it"));
    println!("cargo:rustc-link-search=native={archives}");
    for name in ["accudrina", "field_bench", "layer_bench"] {
        println!("cargo:rustc-link-lib=static={name}");
        println!("cargo:rerun-if-changed={archives}/lib{name}.a");
    }
}
