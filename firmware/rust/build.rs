//! Where the archives lie: in COLUMN_ARCHIVE, or where tools/archive puts them.
fn main() {
    let beside = format!("{}/../../target/staticlib", env!("CARGO_MANIFEST_DIR"));
    let archive = std::env::var("COLUMN_ARCHIVE").unwrap_or(beside);
    println!("cargo:rerun-if-env-changed=COLUMN_ARCHIVE");
    println!("cargo:rerun-if-changed={archive}/libcolumn_bytes.a");
    if cfg!(feature = "walls") {
        println!("cargo:rerun-if-changed={archive}/libwall_bytes.a");
    }
    println!("cargo:rustc-link-search=native={archive}");
}
