// Links the archive that `host/archive.sh` makes, at the root of the repository.
use std::path::Path;

fn main() {
    let folder = Path::new(env!("CARGO_MANIFEST_DIR")).join("../../target/staticlib");
    let archive = folder.join("libcapi.a");
    println!("cargo:rerun-if-changed={}", archive.display());
    if !archive.exists() {
        // Without this line the error is only that the linker finds no `capi`.
        println!(
            "cargo:warning={} is missing: run `host/archive.sh` first",
            archive.display()
        );
    }
    println!("cargo:rustc-link-search=native={}", folder.display());
    println!("cargo:rustc-link-lib=static=capi");
}
