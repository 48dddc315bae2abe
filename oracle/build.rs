//! Copies the original sources, byte for byte, from SLATEDB_SRC into OUT_DIR and
//! writes `modules.rs`, which declares them as modules of this crate.
//!
//! To a copy whose privates are needed, one line is appended *after* the
//! unchanged text: a child module `oracle_access` (src/access/*.rs). A child
//! module sees its parent's private items.
use std::env;
use std::fmt::Write as _;
use std::fs;
use std::path::{Path, PathBuf};

/// (module path of the original, file of its access module or "")
const ORIGINALS: &[(&str, &str)] = &[
    ("comparable_range.rs", "comparable_range.rs"),
    ("bytes_range.rs", "bytes_range.rs"),
    ("partitioned_keyspace.rs", "partitioned_keyspace.rs"),
    ("subcompaction.rs", "subcompaction.rs"),
    ("db_state.rs", "db_state.rs"),
    ("incremental_progress.rs", "incremental_progress.rs"),
    ("compactor_state.rs", ""),
    ("manifest/mod.rs", ""),
    ("read_trace.rs", ""),
];

/// Stand-ins for modules that `manifest/mod.rs` declares and we do not have.
const BESIDE_MANIFEST: &[(&str, &str)] = &[
    ("manifest/invariants.rs", "manifest_invariants.rs"),
    ("manifest/store.rs", "manifest_store.rs"),
];

fn main() {
    println!("cargo:rerun-if-env-changed=SLATEDB_SRC");
    println!("cargo:rerun-if-changed=build.rs");
    let here = PathBuf::from(env::var("CARGO_MANIFEST_DIR").unwrap());
    let out = PathBuf::from(env::var("OUT_DIR").unwrap());
    let root = here.parent().unwrap();
    let from =
        env::var_os("SLATEDB_SRC").map_or_else(|| root.join("../shared/docs/src"), PathBuf::from);
    let tree = out.join("slatedb");
    fs::create_dir_all(tree.join("manifest")).unwrap();

    let mut modules = String::new();
    for (name, access) in ORIGINALS {
        let original = find(&from, name);
        println!("cargo:rerun-if-changed={}", original.display());
        let text = fs::read(&original)
            .unwrap_or_else(|e| panic!("cannot read {}: {e}", original.display()));
        let mut copy = text.clone();
        if !access.is_empty() {
            let access = here.join("src/access").join(access);
            println!("cargo:rerun-if-changed={}", access.display());
            let line = format!(
                "\n// ---- end of the unchanged text; added by build.rs ----\n\
                 #[path = {:?}]\npub(crate) mod oracle_access;\n",
                access.display().to_string()
            );
            copy.extend_from_slice(line.as_bytes());
        }
        let target = tree.join(name);
        fs::write(&target, &copy).unwrap();
        assert!(fs::read(&target).unwrap().starts_with(&text));
        let module = name.trim_end_matches("/mod.rs").trim_end_matches(".rs");
        writeln!(
            modules,
            "#[allow(dead_code, unused_imports)]\n#[path = {:?}]\npub(crate) mod {module};",
            target.display().to_string()
        )
        .unwrap();
    }
    for (name, shim) in BESIDE_MANIFEST {
        let shim = here.join("src/shim").join(shim);
        println!("cargo:rerun-if-changed={}", shim.display());
        fs::copy(&shim, tree.join(name)).unwrap();
    }
    fs::write(out.join("modules.rs"), modules).unwrap();
    println!("cargo:rustc-env=ORACLE_SLATEDB_SRC={}", from.display());
}

/// Finds an original under its seed name (`src--src--x.rs.txt`) or its own
/// (`src/x.rs`, `x.rs`).
fn find(from: &Path, name: &str) -> PathBuf {
    let seed = format!("src--src--{}.txt", name.replace('/', "--"));
    let places = [
        from.join(seed),
        from.join("src").join(name),
        from.join(name),
    ];
    for place in &places {
        if place.is_file() {
            return place.clone();
        }
    }
    panic!("none of {places:?} exists; set SLATEDB_SRC");
}
