//! Where the archive stands.

use std::path::Path;

fn main() {
    let folder = Path::new(env!("CARGO_MANIFEST_DIR")).join("../../crates/leaves/out");
    println!("cargo:rustc-link-search=native={}", folder.display());
    println!(
        "cargo:rerun-if-changed={}",
        folder.join("libleaves.a").display()
    );
}
