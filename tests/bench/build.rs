//! Links libtext_c.a from the folder that TEXT_C_DIR names, and libunchecked.a from that of
//! UNCHECKED_DIR; the script sets both.

fn main() {
    for (variable, library) in [("TEXT_C_DIR", "text_c"), ("UNCHECKED_DIR", "unchecked")] {
        let folder = std::env::var(variable).expect("the script names the library's folder");
        println!("cargo:rerun-if-env-changed={variable}");
        println!("cargo:rerun-if-changed={folder}/lib{library}.a");
        println!("cargo:rustc-link-search=native={folder}");
        println!("cargo:rustc-link-lib=static={library}");
    }
}
