//! Links the tests with the C archive that RIG_LIB names (make sets it). Without it only the pure tests are built.

use std::env;

fn main() {
    println!("cargo:rustc-check-cfg=cfg(rig)");
    println!("cargo:rerun-if-env-changed=RIG_LIB");
    if let Ok(archive) = env::var("RIG_LIB") {
        println!("cargo:rerun-if-changed={archive}");
        println!("cargo:rustc-link-arg-tests={archive}");
        println!("cargo:rustc-cfg=rig");
    }
}
