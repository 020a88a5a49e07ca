//! Finds the static library and has it linked: `out/libisle_c.a` beside this package, which
//! `bindings/rust/archive` makes; `lib/libisle_c.a` beside it, in the tarball for users without the
//! kit; or the file that the variable `ISLE_C_ARCHIVE` names.

use std::env;
use std::ffi::OsStr;
use std::path::{Path, PathBuf};

/// The variable that names an archive elsewhere.
const ARCHIVE: &str = "ISLE_C_ARCHIVE";

/// The variable that names a folder with upstream's sources, for the benchmark.
const UPSTREAM: &str = "CRANELIFT_ISLE";

/// Upstream's modules that the benchmark uses.
const MODULES: [&str; 6] = ["ast", "error", "files", "lexer", "parser", "printer"];

/// Other items that those modules name: a log that writes nothing, and a type that no step uses.
const STUBS: &str = "
#[allow(unused_macros)]
macro_rules! log { ($($word:tt)*) => {}; }
#[allow(unused_imports)]
pub(crate) use log;
pub mod codegen {
    #[derive(Clone, Debug)]
    pub struct Prefix { pub prefix: String, pub name: String }
}
";

fn main() {
    println!("cargo::rerun-if-changed=build.rs");
    link_archive();
    name_upstream();
}

/// A file of the kit's that the archive holds when it is whole: the calls for memory.
const LAST_MEMBER: &[u8] = b"heap.pic.o/";

/// Names the archive to the linker. Without a whole one there is a warning: documents are made and
/// sources are checked without it, and only what is linked fails.
fn link_archive() {
    println!("cargo::rerun-if-env-changed={ARCHIVE}");
    let folder = env::var("CARGO_MANIFEST_DIR").expect("Cargo names the package's folder");
    let beside = Path::new(&folder).parent().unwrap_or(Path::new("/"));
    let places = ["out/libisle_c.a", "lib/libisle_c.a"].map(|it| beside.join(it));
    let own = places.iter().find(|it| it.exists()).unwrap_or(&places[0]);
    let archive = env::var_os(ARCHIVE).map_or(own.clone(), PathBuf::from);
    println!("cargo::rerun-if-changed={}", archive.display());
    let found = archive.canonicalize();
    if !found.as_deref().is_ok_and(is_whole) {
        let is = if found.is_ok() {
            "the file is not the whole"
        } else {
            "there is no"
        };
        println!(
            "cargo::warning={is} archive {}: run bindings/rust/archive in the repository of \
             isle-syntax (it proves the library and makes the archive), or have {ARCHIVE} name one",
            archive.display()
        );
    }
    let archive = found.unwrap_or(archive);
    let (Some(folder), Some(name)) = (
        archive.parent(),
        archive.file_name().and_then(OsStr::to_str),
    ) else {
        println!("cargo::error={} has no name in UTF-8", archive.display());
        return;
    };
    println!("cargo::rustc-link-search=native={}", folder.display());
    println!("cargo::rustc-link-lib=static:+verbatim={name}");
}

/// Whether a file is an archive with all its members.
fn is_whole(archive: &Path) -> bool {
    let bytes = std::fs::read(archive).unwrap_or_default();
    bytes.starts_with(b"!<arch>\n") && bytes.windows(LAST_MEMBER.len()).any(|it| it == LAST_MEMBER)
}

/// Writes the modules that the benchmark includes, if the variable names upstream's crate.
fn name_upstream() {
    println!("cargo::rerun-if-env-changed={UPSTREAM}");
    println!("cargo::rustc-check-cfg=cfg(upstream)");
    let Some(sources) = env::var_os(UPSTREAM).map(|it| PathBuf::from(it).join("src")) else {
        return;
    };
    let mut modules = String::from(STUBS);
    for name in MODULES {
        let file = sources.join(name).with_extension("rs");
        let Ok(file) = file.canonicalize() else {
            println!(
                "cargo::error={UPSTREAM} names no folder of the crate cranelift-isle: there is no {}",
                file.display()
            );
            return;
        };
        modules += &format!("#[allow(warnings)]\n#[path = {file:?}]\npub mod {name};\n");
    }
    let to = PathBuf::from(env::var_os("OUT_DIR").expect("Cargo names a folder for this"));
    std::fs::write(to.join("upstream.rs"), modules).expect("that folder can be written");
    println!("cargo::rustc-cfg=upstream");
}
