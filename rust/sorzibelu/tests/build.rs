//! The build script, compiled by itself and run in a repository with a prover that only pretends: when it proves, what it says, what it links.
mod common;
use common::{folder, root};
use std::{
    env, fs,
    os::unix::fs::PermissionsExt,
    path::{Path, PathBuf},
    process::Command,
    thread::sleep,
    time::Duration,
};

/// The script, compiled.
fn script(dir: &Path) -> PathBuf {
    let program = dir.join("build-script");
    let source = Path::new(env!("CARGO_MANIFEST_DIR")).join("build.rs");
    let rustc = env::var("RUSTC").unwrap_or("rustc".into());
    let done = Command::new(rustc).args(["--edition", "2024", "-o"]).arg(&program).arg(source).output().unwrap();
    assert!(done.status.success(), "{}", String::from_utf8_lossy(&done.stderr));
    program
}

/// Status, what cargo is told, what people are told.
fn run(dir: &Path, archive: &str) -> (bool, String, String) {
    let out = Command::new(dir.join("build-script"))
        .env("CARGO_MANIFEST_DIR", dir.join("rust/sorzibelu"))
        .env("OUT_DIR", dir.join("out"))
        .env("SORZIBELU_ARCHIVE", archive)
        .env("PATH", format!("{}:/usr/bin:/bin", dir.join("bin").display()))
        .output()
        .unwrap();
    (out.status.success(), String::from_utf8_lossy(&out.stdout).into(), String::from_utf8_lossy(&out.stderr).into())
}

/// A prover that notes where it was called and how, and does what the text says at the top of the repository.
fn prover(dir: &Path, text: &str) {
    let rt = dir.join("bin/rt");
    fs::write(&rt, format!("#!/bin/sh\nhere=${{PWD##*/}}\ncd '{}'\necho \"$here: $*\" >>calls\n{text}\n", dir.display())).unwrap();
    fs::set_permissions(&rt, PermissionsExt::from_mode(0o755)).unwrap();
}

#[test]
fn it_proves_what_is_missing_or_changed() {
    let dir = folder("build");
    for sub in ["bin", "out", "tools", "crates/base/src", "crates/c_api_c/src", "rust/sorzibelu"] {
        fs::create_dir_all(dir.join(sub)).unwrap();
    }
    fs::copy(root().join("tools/archive"), dir.join("tools/archive")).unwrap();
    fs::write(dir.join("crates.txt"), "base:\nc_api_c staticlib: base\n").unwrap();
    fs::write(dir.join("crates/base/src/lib.txt"), "one").unwrap();
    script(&dir);
    let linked = || fs::read_to_string(dir.join("out/libc_api.a")).unwrap_or_default();

    // no prover, unless the machine has one beside its own programs
    if !["/usr/bin/rt", "/bin/rt"].iter().any(|p| Path::new(p).exists()) {
        let (fine, _, err) = run(&dir, "");
        assert!(!fine && err.contains("the Rattle toolchain (rt) is not on the PATH") && err.contains("SORZIBELU_ARCHIVE"), "{err}");
    }
    // a prover that does not prove
    prover(&dir, "echo 'logic=not-proved: base'; exit 1");
    let (fine, _, err) = run(&dir, "");
    assert!(!fine && err.contains("did not prove and write the archive") && err.contains("logic=not-proved: base"), "{err}");
    assert!(!dir.join("rust/target/archive/libc_api.a").exists());

    // one that does: called once, and again when a source changed, but not where only its own work did
    fs::remove_file(dir.join("calls")).unwrap();
    prover(&dir, "mkdir -p crates/c_api_c/out crates/base/out; cat crates/base/src/lib.txt >crates/c_api_c/out/libc_api_c.a; sleep 0.02; echo >crates/base/out/kept");
    let calls = || fs::read_to_string(dir.join("calls")).unwrap_or_default();
    let (fine, told, err) = run(&dir, "");
    assert!(fine && err.is_empty(), "{err}");
    for what in ["rerun-if-env-changed=SORZIBELU_ARCHIVE", "/crates/base/src\n", "/crates/c_api_c/src\n", "/crates.txt\n", "/rust/target/archive/libc_api.a\n"] {
        assert!(told.contains(what), "{what}: {told}");
    }
    assert!(told.contains(&format!("cargo:rustc-link-search=native={}", dir.join("out").display())), "{told}");
    assert_eq!((&linked()[..], &calls()[..]), ("one", "c_api_c: lib\n"));
    let (fine, told, _) = run(&dir, "");
    assert!(fine && !told.contains("/base/out\n"), "{told}");
    assert_eq!(calls(), "c_api_c: lib\n");
    sleep(Duration::from_millis(20));
    fs::write(dir.join("crates/base/src/lib.txt"), "two").unwrap();
    assert!(run(&dir, "").0);
    assert_eq!((&linked()[..], &calls()[..]), ("two", "c_api_c: lib\nc_api_c: lib\n"));

    // a prebuilt archive of any name; one that is not there
    let other = dir.join("other.a");
    fs::write(&other, "three").unwrap();
    assert!(run(&dir, other.to_str().unwrap()).0);
    assert_eq!((&linked()[..], calls().lines().count()), ("three", 2));
    let (fine, _, err) = run(&dir, "/no/such/libc_api.a");
    assert!(!fine && err.contains("/no/such/libc_api.a: No such file") && err.contains("SORZIBELU_ARCHIVE has to be"), "{err}");
}
