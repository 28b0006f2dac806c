// Tells cargo where the archive libcapi.a is: in the folder LAFOMEIHU_LIB, or where `make lib` puts it.
use std::env;
use std::path::PathBuf;

fn main() {
    println!("cargo:rerun-if-env-changed=LAFOMEIHU_LIB");
    let made_here = || PathBuf::from(env::var_os("CARGO_MANIFEST_DIR").unwrap()).join("../../target/staticlib");
    let folder = env::var_os("LAFOMEIHU_LIB").map_or_else(made_here, PathBuf::from);
    let archive = folder.join("libcapi.a");
    if !archive.is_file() {
        panic!("no {}: run `make lib`, or set LAFOMEIHU_LIB to the folder of libcapi.a", archive.display());
    }
    println!("cargo:rerun-if-changed={}", archive.display());
    println!("cargo:rustc-link-search=native={}", folder.display());
    println!("cargo:rustc-link-lib=static=capi");
}
