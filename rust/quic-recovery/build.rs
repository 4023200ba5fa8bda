//! Finds the proved library. Only linking needs it: `cargo check`, `cargo doc` and an IDE do without, and a warning names what
//! is missing. Cargo hides warnings of dependencies that are no path, so the linker names the reason too.
//!
//! If `QUIC_RECOVERY_LIB` names a folder, the library is looked for there and nowhere else. In the repository it is the
//! prebuilt archive, if that was built from exactly the sources there, or else the one that `tests/rust.py --library` has
//! built from them. In a packaged crate it is the archive in `native`.
use std::env;
use std::fs;
use std::path::{Path, PathBuf};
use std::process::Command;

/// One archive with all that is linked, as `dist` writes it.
const WHOLE: &str = "libquic_recovery.a";

/// The two archives that the repository builds and that the toolchain has.
const LIBRARY: &str = "librecovery_ffi.a";
const RUNTIME: &str = "liblibc_c.a";

/// The symbol that names the layout of what crosses, in `src/ffi.rs` and in each library.
const LAYOUT: &str = "recovery_ffi_layout_";

/// What the toolchain writes into each object before the logic that it was proved with.
const MARK: &[u8] = b"rattle logic=";

/// A library that does not exist. If the proved library is missing, a program links with this one instead: the linker then
/// fails with this name first, also where cargo shows no warning.
const MISSING: &str = "quic_recovery_has_no_library_for_this_build_see_docs_INSTALL";

/// The one target that a library is built for.
const TARGET: &str = "x86_64-unknown-linux-gnu";

/// The archives that a program links with, the library first.
type Archives = Vec<PathBuf>;

/// The library in a folder that was named: one archive, or two.
fn in_folder(folder: &Path) -> Result<Archives, String> {
    let at = |name| folder.join(name);
    if at(WHOLE).is_file() {
        return Ok(vec![at(WHOLE)]);
    }
    if at(LIBRARY).is_file() && at(RUNTIME).is_file() {
        return Ok(vec![at(LIBRARY), at(RUNTIME)]);
    }
    let folder = folder.display();
    Err(format!(
        "QUIC_RECOVERY_LIB names {folder}, which has neither {WHOLE} nor both {LIBRARY} and {RUNTIME}"
    ))
}

/// The part of the toolchain's runtime that a library of the repository's own needs.
fn runtime() -> Option<PathBuf> {
    let path = env::var_os("PATH").unwrap_or_default();
    let kits = env::split_paths(&path).filter_map(|it| it.join("rt").canonicalize().ok());
    let mut folders: Vec<PathBuf> = kits
        .flat_map(|rt| rt.ancestors().map(Path::to_owned).collect::<Vec<_>>())
        .collect();
    folders.extend(env::var_os("RATTLE_KIT").map(PathBuf::from));
    let mut found = folders.iter().map(|it| it.join("c").join(RUNTIME));
    found.find(|it| it.is_file())
}

/// The library of the repository, as its file `launch` says: it compares checksums, which needs bash and coreutils.
fn in_repository(root: &Path) -> Result<Archives, String> {
    for it in [
        "prebuilt",
        "crates.txt",
        "launch",
        "crates/recovery_ffi/out/librecovery_ffi.a",
    ] {
        rerun(&root.join(it));
    }
    for it in fs::read_dir(root.join("crates"))
        .into_iter()
        .flatten()
        .flatten()
    {
        for part in ["src", "specs", "proofs"] {
            if it.path().join(part).is_dir() {
                rerun(&it.path().join(part));
            }
        }
    }
    let mut asked = Command::new("bash");
    asked.args(["-c", r#". "$0" && library "$1""#]);
    asked.arg(root.join("launch")).arg(TARGET);
    let said = asked
        .output()
        .map_err(|why| format!("bash cannot be run: {why}"))?;
    if !said.status.success() {
        let why = String::from_utf8_lossy(&said.stderr).trim().to_owned();
        return Err(format!(
            "{why}; prove and build the library by tests/rust.py --library, which needs the toolchain"
        ));
    }
    let archive = PathBuf::from(String::from_utf8_lossy(&said.stdout).trim_end());
    if archive.ends_with(WHOLE) {
        return Ok(vec![archive]);
    }
    match runtime() {
        Some(runtime) => Ok(vec![archive, runtime]),
        None => Err(format!(
            "{RUNTIME} is missing, which the toolchain has in its folder c: put rt on the PATH, or set RATTLE_KIT"
        )),
    }
}

/// The library of a packaged crate.
fn in_package(here: &Path) -> Result<Archives, String> {
    let archive = here.join("native").join(TARGET).join(WHOLE);
    if archive.is_file() {
        Ok(vec![archive])
    } else {
        Err(format!("this package has no native/{TARGET}/{WHOLE}"))
    }
}

/// Cargo asks again when this has changed, and at each build while it is missing.
fn rerun(path: &Path) {
    println!("cargo::rerun-if-changed={}", path.display());
}

fn find() -> Result<Archives, String> {
    let target = env::var("TARGET").unwrap_or_default();
    let here = PathBuf::from(env::var_os("CARGO_MANIFEST_DIR").unwrap_or_default());
    let root = here.join("../..");
    if let Some(folder) = env::var_os("QUIC_RECOVERY_LIB") {
        in_folder(Path::new(&folder))
    } else if target != TARGET {
        Err(format!(
            "the proved library is built for {TARGET}, and not for {target}"
        ))
    } else if root.join("launch").is_file() && root.join("crates/recovery_ffi").is_dir() {
        in_repository(&root)
    } else {
        in_package(&here)
    }
}

/// Whether these bytes have these.
fn position(bytes: &[u8], mark: &[u8]) -> Option<usize> {
    bytes.windows(mark.len()).position(|it| it == mark)
}

/// The logic that the library was proved with, its first sixteen digits.
fn logic(bytes: &[u8]) -> Option<String> {
    let at = position(bytes, MARK)? + MARK.len();
    let said = bytes.get(at..at + 16)?;
    let is_logic = said.iter().all(u8::is_ascii_hexdigit);
    is_logic.then(|| String::from_utf8_lossy(said).into_owned())
}

/// The layout that this crate is written for.
fn layout() -> &'static str {
    let declared = include_str!("src/ffi.rs");
    let at = declared.find(LAYOUT).unwrap_or_default();
    let digits = declared[at + LAYOUT.len()..].find('"').unwrap_or_default();
    &declared[at..at + LAYOUT.len() + digits]
}

/// Has the archives linked. Of another layout the linker finds no symbol, and the warning says why.
fn link(archives: &Archives) -> String {
    for it in archives {
        let stem = it.file_stem().unwrap_or_default().to_string_lossy();
        let folder = it.parent().unwrap_or(Path::new("")).display();
        println!("cargo::rerun-if-changed={}", it.display());
        println!("cargo::rustc-link-search=native={folder}");
        println!(
            "cargo::rustc-link-lib=static={}",
            stem.strip_prefix("lib").unwrap_or(&stem)
        );
    }
    let bytes = fs::read(&archives[0]).unwrap_or_default();
    if position(&bytes, layout().as_bytes()).is_none() {
        println!(
            "cargo::warning=no program links: {} is of another version of this crate, for it lacks the symbol {}",
            archives[0].display(),
            layout()
        );
    }
    match logic(&bytes) {
        Some(logic) => format!("proved with logic {logic}"),
        None => "with a library that names no logic".to_owned(),
    }
}

fn main() {
    println!("cargo::rerun-if-changed=build.rs");
    println!("cargo::rerun-if-env-changed=QUIC_RECOVERY_LIB");
    println!("cargo::rerun-if-env-changed=RATTLE_KIT");
    let said = find().map_or_else(
        |why| {
            println!("cargo::warning=no program links: {why}; or name a folder with {WHOLE} by QUIC_RECOVERY_LIB");
            println!("cargo::rustc-link-lib={MISSING}");
            "without its library".to_owned()
        },
        |archives| link(&archives),
    );
    println!("cargo::rustc-env=QUIC_RECOVERY_PROVED={said}");
}
