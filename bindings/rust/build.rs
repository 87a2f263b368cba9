//! Links the library that `bindings/build.sh DIR` has laid down: CICADA_DIR names that folder.
use std::{env, path::Path};

fn main() {
    println!("cargo:rerun-if-env-changed=CICADA_DIR");
    let Ok(folder) = env::var("CICADA_DIR") else {
        panic!("set CICADA_DIR to the folder that `bindings/build.sh DIR` has laid down")
    };
    let library = Path::new(&folder).join("lib");
    println!("cargo:rerun-if-changed={}", library.join("libcicada.a").display());
    println!("cargo:rustc-link-search=native={}", library.display());
    println!("cargo:rustc-link-lib=static=cicada");
}
