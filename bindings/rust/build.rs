//! Links the archive that `rt lib` makes of `crates/priority_channel_c`.

use std::path::PathBuf;

fn main() {
    println!("cargo:rerun-if-env-changed=PRIORITY_CHANNEL_LIB");
    let folder = std::env::var_os("PRIORITY_CHANNEL_LIB").map_or_else(
        || PathBuf::from(env!("CARGO_MANIFEST_DIR")).join("../../crates/priority_channel_c/out"),
        PathBuf::from,
    );
    let archive = folder.join("libpriority_channel_c.a");
    assert!(
        archive.is_file(),
        "there is no {}: set PRIORITY_CHANNEL_LIB to the folder of the archive",
        archive.display()
    );
    println!("cargo:rerun-if-changed={}", archive.display());
    println!("cargo:rustc-link-search=native={}", folder.display());
    println!("cargo:rustc-link-lib=static=priority_channel_c");
}
