use std::env;
use std::path::Path;

fn main() {
    println!("cargo:rerun-if-changed=build.rs");
    println!("cargo:rerun-if-env-changed=WATER_BOOK_LIB");
    println!("cargo:rustc-check-cfg=cfg(water_book)");
    let Ok(folder) = env::var("WATER_BOOK_LIB") else {
        return;
    };
    let library = Path::new(&folder).join("libhub.a");
    assert!(
        library.is_absolute() && library.is_file(),
        "WATER_BOOK_LIB must be the whole path of the folder with libhub.a"
    );
    println!("cargo:rerun-if-changed={}", library.display());
    println!("cargo:rustc-cfg=water_book");
    println!("cargo:rustc-link-search=native={folder}");
    println!("cargo:rustc-link-lib=static=hub");
}
