//! Finds the published files beside the project, or in LHAMTROVI_PUBLISHED, and lets the crate read them where they are.
use std::env;
use std::fs;
use std::os::unix::fs::symlink;
use std::path::{Path, PathBuf};

/// The published files that are compiled.
const FILES: [&str; 9] = [
    "mod.rs",
    "union.rs",
    "intersection.rs",
    "difference.rs",
    "covering_difference.rs",
    "covering_union.rs",
    "equality.rs",
    "iter.rs",
    "filter.rs",
];
/// The modules beside them that are not there, and what of ours stands in for each.
const MISSING: [(&str, &str); 3] = [
    (
        "map.rs",
        "pub use crate::shells::{ClonedView, CopiedView, MapView};\n",
    ),
    ("trie_ref.rs", "pub use crate::pool_view::TrieRef;\n"),
    ("trie_ref_mut.rs", "pub use crate::shells::TrieRefMut;\n"),
];

fn main() {
    println!("cargo:rerun-if-env-changed=LHAMTROVI_PUBLISHED");
    println!("cargo:rustc-check-cfg=cfg(published)");
    let project = PathBuf::from(env::var_os("CARGO_MANIFEST_DIR").expect("cargo sets it"));
    let folder = match env::var_os("LHAMTROVI_PUBLISHED") {
        Some(folder) => PathBuf::from(folder),
        None => project.join("../../../shared/docs/src"),
    };
    let views = folder.join("src/trieview");
    println!("cargo:rerun-if-changed={}", views.display());
    if FILES.iter().all(|file| views.join(file).is_file()) {
        let views = views.canonicalize().expect("it is there");
        let out = PathBuf::from(env::var_os("OUT_DIR").expect("cargo sets it"));
        join_files(&views, &out);
        println!("cargo:rustc-cfg=published");
    }
}

/// Makes a folder with links to the published files and with the modules that they miss, and a file that names it.
fn join_files(views: &Path, out: &Path) {
    let joined = out.join("trieview");
    let _ = fs::remove_dir_all(&joined);
    fs::create_dir_all(&joined).expect("the build's folder can be written");
    for file in FILES {
        println!("cargo:rerun-if-changed={}", views.join(file).display());
        symlink(views.join(file), joined.join(file)).expect("links can be made");
    }
    for (file, text) in MISSING {
        fs::write(joined.join(file), text).expect("the build's folder can be written");
    }
    let module = joined.join("mod.rs");
    let text = format!("#[path = {module:?}]\n#[allow(warnings)]\npub mod trieview;\n");
    fs::write(out.join("views.rs"), text).expect("the build's folder can be written");
}
