//! Links libtext_c.a, libleaf_c.a, liblist_c.a and libreading.a from the folder that TEXT_C_DIR names; the script sets it.

fn main() {
    let folder = std::env::var("TEXT_C_DIR").expect("TEXT_C_DIR names the libraries' folder");
    println!("cargo:rerun-if-env-changed=TEXT_C_DIR");
    println!("cargo:rustc-link-search=native={folder}");
    for library in ["text_c", "leaf_c", "list_c", "reading"] {
        println!("cargo:rerun-if-changed={folder}/lib{library}.a");
        println!("cargo:rustc-link-lib=static={library}");
    }
}
