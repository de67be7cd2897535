//! `./run` as a newcomer types it, with a prover and a cargo that only pretend: what is said, in which order, and that two at once prove once.
mod common;
use common::{Folder, folder, root};
use std::{
    fs,
    os::unix::fs::PermissionsExt,
    path::{Path, PathBuf},
    process::{Command, Output, Stdio},
    thread::sleep,
    time::Duration,
};

fn script(path: PathBuf, text: &str) {
    fs::write(&path, format!("#!/bin/sh\n{text}")).unwrap();
    fs::set_permissions(&path, PermissionsExt::from_mode(0o755)).unwrap();
}

/// What the prover says of a crate that it proves.
const BASE: &str = "echo 'rt: chose --jobs 2 for base'\necho 'crate base: modules loaded=1 checked=2'\necho 'logic=proved functions=3'\n";

/// A repository with two crates that are needed, a prover and a cargo that note each call in `calls`.
fn repository(name: &str) -> Folder {
    let dir = folder(name);
    for sub in ["bin", "tools", "crates/base/src", "crates/c_api_c/src", "rust/sorzibelu/src/bin/sorzibelu"] {
        fs::create_dir_all(dir.join(sub)).unwrap();
    }
    for script in ["run", "tools/archive"] {
        fs::copy(root().join(script), dir.join(script)).unwrap();
    }
    fs::write(dir.join("crates.txt"), "# names\nbase:\nother: base\nc_api_c staticlib: base\n").unwrap();
    fs::write(dir.join("crates/base/src/lib.txt"), "").unwrap();
    fs::write(dir.join("rust/Cargo.toml"), "").unwrap();
    fs::write(dir.join("rust/Cargo.lock"), "").unwrap();
    fs::write(dir.join("rust/sorzibelu/src/bin/sorzibelu/flow.rs"), "    name: \"flow\",\n").unwrap();
    fs::write(dir.join("a.sheet"), "").unwrap();
    script(
        dir.join("bin/rt"),
        &format!(
            "echo \"${{PWD##*/}}: rt $*\" >>../../calls\nsleep 0.3\n{BASE}mkdir -p out ../base/out && echo >out/libc_api_c.a && echo >../base/out/kept\n\
             echo 'crate c_api_c: modules loaded=1 checked=2'\necho 'logic=proved functions=12'\n"
        ),
    );
    script(
        dir.join("bin/cargo"),
        "echo cargo >>calls\nmkdir -p rust/target/release\nprintf '#!/bin/sh\\necho answered \"$@\"\\n' >rust/target/release/sorzibelu\nchmod +x rust/target/release/sorzibelu\n",
    );
    dir
}

fn start(dir: &Path, words: &[&str]) -> Command {
    let mut c = Command::new("bash");
    c.arg("./run").args(words).current_dir(dir).env_remove("SORZIBELU_ARCHIVE").env("PATH", format!("{}:/usr/bin:/bin", dir.join("bin").display()));
    c.stdout(Stdio::piped()).stderr(Stdio::piped());
    c
}

fn said(out: &Output) -> (i32, String, String) {
    (out.status.code().unwrap(), String::from_utf8_lossy(&out.stdout).into(), String::from_utf8_lossy(&out.stderr).into())
}

fn ran(dir: &Path, words: &[&str]) -> (i32, String, String) {
    said(&start(dir, words).output().unwrap())
}

fn calls(dir: &Path) -> Vec<String> {
    fs::read_to_string(dir.join("calls")).unwrap_or_default().lines().map(String::from).collect()
}

#[test]
fn the_first_run_says_what_it_proves_and_the_next_starts_at_once() {
    let dir = repository("run_first");
    let (status, out, err) = ran(&dir, &["a.sheet"]);
    assert_eq!((status, &out[..]), (0, "answered page a.sheet\n"));
    assert_eq!(
        err,
        "run: proving the 2 crates that the answers come from: base, c_api_c\nrun: that takes minutes, and is done once\n\
         run: 1 of 2: base proved\nrun: 2 of 2: c_api_c proved, and the archive written\nrun: building the command\n"
    );
    assert_eq!(calls(&dir), ["c_api_c: rt lib", "cargo"]);
    for (words, page) in [(&["a.sheet"][..], "page a.sheet"), (&["-l", "a.sheet"], "live a.sheet"), (&["flow", "a.sheet"], "flow a.sheet"), (&["-"], "page -"), (&["--help"], "--help")] {
        assert_eq!(ran(&dir, words), (0, format!("answered {page}\n"), String::new()));
    }
    assert_eq!(calls(&dir).len(), 2);
    // a changed crate is proved again, a changed command built again
    sleep(Duration::from_millis(20));
    fs::write(dir.join("crates/base/src/lib.txt"), "changed").unwrap();
    assert_eq!(ran(&dir, &["a.sheet"]).0, 0);
    assert_eq!(calls(&dir)[2..], ["c_api_c: rt lib", "cargo"]);
    // what the prover keeps beside the sources is none of them
    sleep(Duration::from_millis(20));
    fs::write(dir.join("crates/base/out/kept"), "more").unwrap();
    assert_eq!(ran(&dir, &["a.sheet"]).0, 0);
    assert_eq!(calls(&dir).len(), 4);
    sleep(Duration::from_millis(20));
    fs::write(dir.join("rust/sorzibelu/src/bin/sorzibelu/list.rs"), "    name: \"list\",\n").unwrap();
    assert_eq!(ran(&dir, &["list", "a.sheet"]).1, "answered list a.sheet\n");
    assert_eq!(calls(&dir)[4..], ["cargo"]);
}

/// `--help` and `--version` before anything is proved: out of the sources, and the same commands as the built command's own.
#[test]
fn help_needs_no_proof() {
    let dir = repository("run_help");
    for file in fs::read_dir(root().join("rust/sorzibelu/src/bin/sorzibelu")).unwrap().map(|f| f.unwrap().path()) {
        fs::copy(&file, dir.join("rust/sorzibelu/src/bin/sorzibelu").join(file.file_name().unwrap())).unwrap();
    }
    fs::copy(root().join("rust/Cargo.toml"), dir.join("rust/Cargo.toml")).unwrap();
    let commands = |text: &str| text.lines().filter(|l| l.starts_with("  ")).map(String::from).collect::<Vec<_>>();
    let built = common::run(&["--help"]).1;
    for word in ["--help", "-h", "help"] {
        let (status, out, err) = ran(&dir, &[word]);
        assert!(status == 0 && out.starts_with("run FILE") && err.is_empty(), "{out}{err}");
        assert_eq!(commands(&out), commands(&built));
    }
    for word in ["--version", "-V"] {
        assert_eq!(ran(&dir, &[word]), common::run(&["--version"]));
    }
    assert!(calls(&dir).is_empty());
}

#[test]
fn four_at_once_prove_once() {
    let dir = repository("run_four");
    let all: Vec<_> = (0..4).map(|_| start(&dir, &["a.sheet"]).spawn().unwrap()).collect();
    let outs: Vec<_> = all.into_iter().map(|c| said(&c.wait_with_output().unwrap())).collect();
    assert!(outs.iter().all(|o| o.0 == 0 && o.1 == "answered page a.sheet\n"), "{outs:?}");
    assert_eq!(calls(&dir), ["c_api_c: rt lib", "cargo"]);
    assert_eq!(outs.iter().filter(|o| o.2.contains("another run is proving; waiting for it")).count(), 3);
}

#[test]
fn what_is_missing_is_said_before_the_proofs() {
    let dir = repository("run_missing");
    for (words, says) in [(&[][..], "usage: run FILE"), (&["nofile"], "nofile: neither a file nor a command")] {
        let (status, out, err) = ran(&dir, words);
        assert!(status == 2 && out.is_empty() && err.lines().count() == 1 && err.starts_with(says), "{err}");
    }
    for (tool, says) in [("cargo", "cargo is not on the PATH"), ("rt", "the Rattle toolchain (rt) is not on the PATH")] {
        let (here, away) = (dir.join("bin").join(tool), dir.join(tool));
        fs::rename(&here, &away).unwrap();
        // a machine may have the tool elsewhere: a PATH of links to what the script itself needs
        for need in ["bash", "dirname", "find", "grep", "realpath"] {
            let from = ["/usr/bin", "/bin"].map(|p| Path::new(p).join(need)).into_iter().find(|p| p.exists()).unwrap();
            let _ = std::os::unix::fs::symlink(from, dir.join("bin").join(need));
        }
        let out = start(&dir, &["a.sheet"]).env("PATH", dir.join("bin")).output().unwrap();
        let (status, out, err) = said(&out);
        assert!(status == 2 && out.is_empty() && err.lines().count() == 1 && err.starts_with(says), "{tool}: {err}");
        fs::rename(&away, &here).unwrap();
    }
    assert!(calls(&dir).is_empty());
}

#[test]
fn what_is_not_proved_is_not_answered() {
    let dir = repository("run_unproved");
    script(dir.join("bin/rt"), "echo 'crate base: modules loaded=1 checked=2'\necho 'logic=not-proved: base'\nexit 1\n");
    let (status, out, err) = ran(&dir, &["a.sheet"]);
    assert!(status == 2 && out.is_empty() && !err.contains("1 of 2") && err.contains("logic=not-proved: base") && err.ends_with("run: not everything was proved, so nothing is answered\n"), "{err}");
    assert!(calls(&dir).is_empty());
}
