//! Links the program `compare`, and nothing else, with the archive that KUZHLEMOR_LIB names.

use std::path::Path;

fn main() {
    println!("cargo:rerun-if-env-changed=KUZHLEMOR_LIB");
    match std::env::var("KUZHLEMOR_LIB") {
        Ok(archive) if Path::new(&archive).is_absolute() => {
            println!("cargo:rerun-if-changed={archive}");
            println!("cargo:rustc-link-arg-bin=compare={archive}");
        }
        Ok(_) => println!("cargo:warning=KUZHLEMOR_LIB isn't an absolute path; compare won't link"),
        Err(_) => println!("cargo:warning=KUZHLEMOR_LIB isn't set; compare won't link"),
    }
}
