//! Links libnote_c.a and libedits_c.a from the folder that TEXT_C_DIR names; the script sets it.

fn main() {
    let folder = std::env::var("TEXT_C_DIR").expect("TEXT_C_DIR names the libraries' folder");
    println!("cargo:rerun-if-env-changed=TEXT_C_DIR");
    println!("cargo:rustc-link-search=native={folder}");
    for library in ["note_c", "edits_c"] {
        println!("cargo:rerun-if-changed={folder}/lib{library}.a");
        println!("cargo:rustc-link-lib=static={library}");
    }
}
