//! Links the proved archive: the one that SORZIBELU_ARCHIVE names, else rust/target/archive/libc_api.a of this repository, proved and built anew
//! by tools/archive where it is missing or older than the Rattle sources.
use std::{
    env, fs,
    path::{Path, PathBuf},
    process::{Command, exit},
    time::SystemTime,
};

const VARIABLE: &str = "SORZIBELU_ARCHIVE";

fn fail(why: &str) -> ! {
    eprintln!("\n{why}\n");
    exit(1)
}

fn entries(folder: &Path) -> Vec<PathBuf> {
    fs::read_dir(folder).into_iter().flatten().flatten().map(|e| e.path()).collect()
}

fn changed(file: &Path) -> Option<SystemTime> {
    fs::metadata(file).and_then(|m| m.modified()).ok()
}

/// When a file, or a file of a folder, was last changed.
fn newest(path: &Path) -> SystemTime {
    let times: Option<SystemTime> = if path.is_dir() { entries(path).iter().map(|p| newest(p)).max() } else { changed(path) };
    times.unwrap_or(SystemTime::UNIX_EPOCH)
}

/// What the archive is made of: crates.txt, and all of each crate but its folder out/, where the prover keeps its work.
fn sources(root: &Path) -> Vec<PathBuf> {
    let parts = entries(&root.join("crates")).into_iter().flat_map(|c| entries(&c)).filter(|p| !p.ends_with("out"));
    parts.chain([root.join("crates.txt")]).collect()
}

/// The archive of this repository, which `rt` proves and writes where it is not up to date.
fn proved(root: &Path) -> PathBuf {
    let archive = root.join("rust/target/archive/libc_api.a");
    let sources = sources(root);
    for path in &sources {
        println!("cargo:rerun-if-changed={}", path.display());
    }
    let last = sources.iter().map(|p| newest(p)).max();
    let fresh = || changed(&archive) >= last;
    if fresh() {
        return archive;
    }
    // one prover at a time: ./run takes the same lock, and whoever comes second finds the work done
    let lock = fs::File::open(root.join("crates.txt"));
    let _ = lock.as_ref().map(fs::File::lock);
    if fresh() {
        return archive;
    }
    let done = Command::new(root.join("tools/archive")).output();
    match done.as_ref().map(|d| d.status.code()) {
        Err(e) => fail(&format!("tools/archive cannot be run: {e}")),
        Ok(Some(127)) => fail(&format!(
            "The proved archive has to be built, and the Rattle toolchain (rt) is not on the PATH.\n\
             Put rt on the PATH, or set {VARIABLE} to the path of a libc_api.a that was built elsewhere (tools/archive)."
        )),
        Ok(Some(0)) if archive.exists() => archive,
        Ok(_) => {
            let said = done.map(|d| [d.stdout, d.stderr].concat()).unwrap_or_default();
            fail(&format!("`tools/archive` did not prove and write the archive:\n{}", String::from_utf8_lossy(&said)))
        }
    }
}

fn main() {
    let here = PathBuf::from(env::var("CARGO_MANIFEST_DIR").unwrap());
    let root = here.join("../..").canonicalize().unwrap_or(here);
    println!("cargo:rerun-if-env-changed={VARIABLE}");
    let archive = match env::var_os(VARIABLE).filter(|v| !v.is_empty()) {
        Some(path) => PathBuf::from(path),
        None => proved(&root),
    };
    println!("cargo:rerun-if-changed={}", archive.display());
    // a copy of its own, so that an archive of any name links, and one that is written meanwhile does no harm
    let out = PathBuf::from(env::var("OUT_DIR").unwrap());
    if let Err(e) = fs::copy(&archive, out.join("libc_api.a")) {
        fail(&format!("{}: {e}\n{VARIABLE} has to be the path of the proved archive, libc_api.a.", archive.display()));
    }
    println!("cargo:rustc-link-search=native={}", out.display());
}
