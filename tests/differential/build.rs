//! Links the proved library `libexports.a`. The environment variable LIZKORPE_STATICLIB names its
//! folder; a relative one starts at the root of the workspace.

use std::env;
use std::path::Path;

fn main() {
    println!("cargo::rerun-if-env-changed=LIZKORPE_STATICLIB");
    let folder = env::var("LIZKORPE_STATICLIB").expect("LIZKORPE_STATICLIB names the folder of libexports.a");
    let folder = Path::new(env!("CARGO_MANIFEST_DIR")).join("../..").join(folder);
    println!("cargo::rerun-if-changed={}", folder.join("libexports.a").display());
    println!("cargo::rustc-link-search=native={}", folder.display());
    println!("cargo::rustc-link-lib=static=exports");
}
