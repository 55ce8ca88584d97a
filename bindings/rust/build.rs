//! Links the static library, which needs only libc. ACLCK_LIB is the directory that it is in. Without this variable, it is
//! the directory `lib` of this crate, if the library is there, and otherwise /usr/local/lib.

use std::path::Path;

fn main() {
    let own = Path::new(&std::env::var("CARGO_MANIFEST_DIR").unwrap_or_default()).join("lib");
    let installed = if own.join("libaclck.a").exists() { own } else { "/usr/local/lib".into() };
    let directory = std::env::var("ACLCK_LIB").map_or(installed, Into::into);
    let directory = directory.display();
    println!("cargo:rustc-link-search=native={directory}");
    println!("cargo:rustc-link-lib=static=aclck");
    println!("cargo:rerun-if-env-changed=ACLCK_LIB");
}
