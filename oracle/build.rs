//! Points the library at the four Rust files. `ARM_VGIC_SRC` names their folder;
//! `default-source`, read from the repository's root, is used where it is not set.
//! Three are compiled where they lie. interrupt.rs gets a line behind its last one,
//! in a copy in cargo's own folder: `made.rs` becomes a child of it, which can make
//! a record from its fields. With the features `rattle` and `face` this also links
//! the Rattle libraries, from the folder that `RATTLE_LIB` names.

use std::{
    env, fs,
    path::{Path, PathBuf},
    process,
};

const MODULES: [&str; 4] = ["types", "interrupt", "register", "distributor"];

/// The features that link a library, and which.
const LIBRARIES: [(&str, &str); 2] = [
    ("CARGO_FEATURE_RATTLE", "harness_batch"),
    ("CARGO_FEATURE_FACE", "face"),
];

fn main() {
    let package = PathBuf::from(env::var_os("CARGO_MANIFEST_DIR").unwrap());
    let made = PathBuf::from(env::var_os("OUT_DIR").unwrap());
    let source = env::var_os("ARM_VGIC_SRC").map_or_else(
        || {
            package
                .join("..")
                .join(include_str!("default-source").trim())
        },
        PathBuf::from,
    );
    println!("cargo:rerun-if-env-changed=ARM_VGIC_SRC");
    println!("cargo:rerun-if-changed=default-source");

    println!("cargo:rerun-if-env-changed=RATTLE_LIB");
    for (feature, library) in LIBRARIES {
        if env::var_os(feature).is_some() {
            link(library);
        }
    }

    let mut text = String::new();
    for module in MODULES {
        let Ok(mut file) = source.join(module).with_extension("rs").canonicalize() else {
            eprintln!("oracle: no {module}.rs in {}", source.display());
            process::exit(2);
        };
        println!("cargo:rerun-if-changed={}", file.display());
        if module == "interrupt" {
            file = with_child(&file, &package.join("src/made.rs"), &made);
        }
        text += &format!("#[allow(dead_code)]\n#[path = {file:?}]\nmod {module};\n");
    }
    fs::write(made.join("sources.rs"), text).unwrap();
}

fn link(library: &str) {
    let Some(folder) = env::var_os("RATTLE_LIB").map(PathBuf::from) else {
        eprintln!("oracle: RATTLE_LIB is to name the folder of lib{library}.a");
        process::exit(2);
    };
    let archive = folder.join(format!("lib{library}.a"));
    println!("cargo:rerun-if-changed={}", archive.display());
    println!("cargo:rustc-link-search=native={}", folder.display());
    println!("cargo:rustc-link-lib=static={library}");
}

/// A copy of a file that declares one more module, its child.
fn with_child(file: &Path, child: &Path, folder: &Path) -> PathBuf {
    let name = child.file_stem().unwrap().display();
    let text = fs::read_to_string(file).unwrap();
    let copy = folder.join(file.file_name().unwrap());
    fs::write(
        &copy,
        format!("{text}\n#[path = {child:?}]\npub(crate) mod {name};\n"),
    )
    .unwrap();
    copy
}
