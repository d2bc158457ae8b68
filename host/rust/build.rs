//! Links libwerfund.a of the target: target/staticlib at the top of the repository, which host/build.sh writes, for AArch64
//! target/staticlib-aarch64, which host/arm/build.sh writes.
use std::path::Path;

fn main() {
    let folder = match std::env::var("CARGO_CFG_TARGET_ARCH").as_deref() {
        Ok("aarch64") => "../../target/staticlib-aarch64",
        _ => "../../target/staticlib",
    };
    let library = Path::new(env!("CARGO_MANIFEST_DIR")).join(folder);
    println!(
        "cargo:rerun-if-changed={}",
        library.join("libwerfund.a").display()
    );
    println!("cargo:rustc-link-search=native={}", library.display());
    println!("cargo:rustc-link-lib=static=werfund");
}
