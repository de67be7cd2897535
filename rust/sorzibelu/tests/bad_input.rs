//! Any file, none, a folder, a closed or full output: one clear line, the right status, nothing half written.
mod common;
use common::*;
use std::{
    fs,
    process::{Command, Stdio},
    time::{Duration, Instant},
};

#[test]
fn words_that_are_wrong() {
    trouble(&[], "a command should stand here");
    trouble(&["nix"], "'nix' is no command");
    trouble(&["help", "nix"], "'nix' is no command");
    trouble(&["check"], "no file is named; usage: sorzibelu check FILE");
    trouble(&["check", "a", "b"], "'b' is one word too many");
    trouble(&["check", "-x", "a"], "'-x' is no option here");
    trouble(&["rewrite", "-o"], "nothing stands behind -o");
    trouble(&["rewrite", "-o", "a", "-o", "b", "c"], "-o stands twice");
    trouble(&["renumber", "-o"], "nothing stands behind -o");
    trouble(&["renumber"], "no file is named; usage: sorzibelu renumber [-o SHEET] FILE");
    trouble(&["label"], "no file is named; usage: sorzibelu label FILE [LABEL]");
    trouble(&["live-class"], "no file is named; usage: sorzibelu live-class FILE ..");
    trouble(&["dying"], "no file is named");
    for words in [&["dying", "-", "-"][..], &["live-class", "-", "-"], &["mark", "-", "-"], &["mark", &stored("m2.txt"), "-", "-"], &["dying", "--", "-", "-"]] {
        trouble(words, "- stands twice, and standard input can be read once");
    }
}

#[test]
fn files_that_cannot_be_read() {
    let dir = folder("unread");
    let (missing, here) = (dir.join("missing").display().to_string(), dir.display().to_string());
    for command in ["page", "live", "live-class", "flow", "rewrite", "renumber", "label", "check", "assemble", "list", "in-use", "conditional", "dying"] {
        trouble(&[command, &missing], &format!("{missing}: No such file"));
        trouble(&[command, &here], &format!("{here}: Is a directory"));
    }
    trouble(&["page", ""], "'': No such file");
    // an empty file is no sheet, a zero-byte text neither
    refused(&["check", "/dev/null"], "refused 1 0\nthe sheet is empty: it has 2 to 70 blocks of 512 bytes\n");
    trouble(&["assemble", "/dev/null"], "the file is empty");
    trouble(&["in-use", "/dev/null"], "the file is empty");
    // an endless one
    for command in ["check", "live-class"] {
        trouble(&[command, "/dev/zero"], "/dev/zero: more than 64 MiB, which is no sheet, no class set and no text of one");
    }
}

#[test]
fn files_of_another_sort() {
    let dir = folder("sorts");
    let m1 = fs::read(stored("m1.txt")).unwrap();
    let wide: Vec<u8> = [0xff, 0xfe].into_iter().chain(m1.iter().flat_map(|b| [*b, 0])).collect();
    trouble(&["check", &file(&dir, "wide", wide)], "a text in UTF-16: it has to be saved as UTF-8");
    trouble(&["check", &file(&dir, "latin", b"locals 1 user 1 parameters 1 references\nret t0 // f\xfcr\n")], "line 2: a letter that is not UTF-8");
    trouble(&["check", &file(&dir, "prose", "Dear examiner,\nhere is my sheet.\n")], "line 1: no heading");
    trouble(&["assemble", &stored("m1.sheet")], "bytes, where a text should stand");
    // other bytes are a sheet that is refused
    for (bytes, says) in [(vec![255; 1024], "refused 2 0\n"), (vec![0; 20_000_000], "refused 1 0\nthe sheet has 20000000 bytes"), (b"\x7fELF\0\0".to_vec(), "refused 1 0\n")] {
        let (status, out, err) = run(&["check", &file(&dir, "bytes", bytes)]);
        assert!(status == 1 && out.starts_with(says) && err.is_empty(), "{status} {out} {err}");
    }
}

#[test]
fn huge_texts() {
    let dir = folder("huge");
    let began = Instant::now();
    let line = file(&dir, "line", "x".repeat(20_000_000));
    let words = file(&dir, "words", format!("locals 1 user 1 parameters 0 references\nret{}\n", " t0".repeat(7_000_000)));
    let comment = file(&dir, "comment", format!("// {}\nlocals 1 user 1 parameters 0 references\nret\n", "y".repeat(20_000_000)));
    let lines = file(&dir, "lines", format!("locals 1 user 1 parameters 0 references\n{}", "nop\n".repeat(2_000_000)));
    let wrong = file(&dir, "wrong", format!("locals 1 user 1 parameters 0 references\n{}", "hop\n".repeat(2_000_000)));
    trouble(&["check", &line], "line 1: no heading: 'xxxx");
    trouble(&["check", &words], "line 2: ");
    answered(&["check", &comment], "accepted\n");
    trouble(&["check", &lines], "2000000 instructions are more than a heading can count");
    let (status, out, err) = run(&["check", &wrong]);
    assert!(status == 2 && out.is_empty() && err.lines().count() <= 102 && err.len() < 20_000, "{status} {out} {err}");
    for graph in [&line, &lines] {
        let (status, out, err) = run(&["in-use", graph]);
        assert!(status == 2 && out.is_empty() && err.lines().count() <= 102 && err.len() < 20_000, "{status} {out} {err}");
    }
    assert!(began.elapsed() < Duration::from_secs(30));
}

#[test]
fn every_fault_of_a_text_at_once() {
    let dir = folder("faults");
    let name = file(&dir, "sheet", "locals 1 user 1 parameters 0 references\nhop\nt0 <- call not\nret t0 t\n");
    for words in [&["page", &name][..], &["live", &name], &["mark", &name, &stored("answers/first.txt")]] {
        let (status, out, err) = run(words);
        assert_eq!((status, &out[..]), (2, ""));
        let lines: Vec<&str> = err.lines().collect();
        assert_eq!(lines.len(), 3, "{err}");
        assert!(lines.iter().all(|l| l.starts_with(&format!("{name}: line "))), "{err}");
        assert!(lines[1].starts_with(&format!("{name}: line 3: 'not' is")) && lines[1].ends_with("did you mean Not?"), "{err}");
    }
}

#[test]
fn output_that_cannot_be_written() {
    let m6 = stored("m6.txt");
    let (m2, m7, second) = (stored("m2.txt"), stored("m7.txt"), stored("answers/second.txt"));
    let mut all: Vec<Vec<&str>> = ["page", "live", "live-class", "flow", "rewrite", "renumber", "label", "check", "list", "assemble"].iter().map(|c| vec![*c, &m6]).collect();
    all.extend(["page", "check", "in-use", "conditional", "dying"].iter().map(|c| vec![*c, &m7]));
    all.extend([vec!["check", "--help"], vec!["mark", &m2, &second], vec!["mark", "--csv", &m2, &second]]);
    for words in &all {
        let full = fs::File::options().write(true).open("/dev/full").unwrap();
        let out = command(words).stdout(full).stderr(Stdio::piped()).spawn().unwrap().wait_with_output().unwrap();
        assert_eq!((out.status.code(), &out.stderr[..]), (Some(2), &b"standard output: No space left on device (os error 28)\n"[..]), "{words:?}");
    }
    // closed from the start
    for words in &all {
        let mut shell = Command::new("sh");
        shell.args(["-c", "exec \"$0\" \"$@\" >&-", env!("CARGO_BIN_EXE_sorzibelu")]).args(words);
        let out = shell.output().unwrap();
        assert_eq!((out.status.code(), &out.stderr[..]), (Some(2), &b"standard output is closed\n"[..]), "{words:?}");
    }
    // and with no place for the complaint either
    let full = || fs::File::options().write(true).open("/dev/full").unwrap();
    let status = command(&["check", &stored("m6.txt")]).stdout(full()).stderr(full()).status().unwrap();
    assert_eq!(status.code(), Some(2));
}

#[test]
fn a_closed_pipe_ends_quietly() {
    let (m6, kind12, m7) = (stored("m6.txt"), stored("kind12.sheet"), stored("m7.txt"));
    let long: Vec<Vec<&str>> = ["page", "live", "live-class", "flow", "rewrite", "renumber", "label", "list", "assemble"].iter().map(|c| vec![*c, &m6]).collect();
    for words in long.into_iter().chain([vec!["check", &kind12], vec!["page", &m7], vec!["dying", &m7], vec!["mark", &m6, &m6], vec!["flow", "--help"]]) {
        let (reader, writer) = std::io::pipe().unwrap();
        drop(reader);
        let out = command(&words).stdout(writer).stderr(Stdio::piped()).spawn().unwrap().wait_with_output().unwrap();
        assert_eq!((out.status.code(), out.stderr.len()), (Some(0), 0), "{words:?}");
    }
}

#[test]
fn a_file_is_written_whole_or_not_at_all() {
    let dir = folder("whole");
    let m5 = stored("m5.txt");
    let left = || fs::read_dir(&dir).unwrap().count();
    let nowhere = dir.join("no/such").display().to_string();
    for command in ["rewrite", "renumber"] {
        trouble(&[command, "-o", &nowhere, &m5], &format!("{nowhere}: No such file"));
    }
    trouble(&["assemble", "-o", &dir.display().to_string(), &m5], "s a directory");
    trouble(&["assemble", "-o", "/dev/full", &m5], "/dev/full: No space left on device");
    answered(&["assemble", "-o", "/dev/null", &m5], "");
    assert!(!fs::metadata("/dev/null").unwrap().is_file());
    // what was there stays where the sheet is refused, or no text
    let old = file(&dir, "old", "old");
    let (status, ..) = run(&["rewrite", "-o", &old, &stored("kind12.sheet")]);
    assert_eq!((status, fs::read(&old).unwrap()), (1, b"old".to_vec()));
    let bad = file(&dir, "bad", "locals\n");
    assert_eq!((run(&["assemble", "-o", &old, &bad]).0, fs::read(&old).unwrap()), (2, b"old".to_vec()));
    // through a link, with the mode that it had, and onto the text itself
    std::os::unix::fs::symlink(&old, dir.join("link")).unwrap();
    let mode = |f: &str| std::os::unix::fs::PermissionsExt::mode(&fs::metadata(f).unwrap().permissions()) & 0o777;
    fs::set_permissions(&old, std::os::unix::fs::PermissionsExt::from_mode(0o640)).unwrap();
    answered(&["assemble", "-o", &dir.join("link").display().to_string(), &m5], "");
    assert_eq!((fs::read(&old).unwrap(), mode(&old)), (fs::read(stored("m5.sheet")).unwrap(), 0o640));
    assert!(fs::symlink_metadata(dir.join("link")).unwrap().is_symlink());
    let own = file(&dir, "own", fs::read(&m5).unwrap());
    answered(&["assemble", "-o", &own, &own], "");
    assert_eq!(fs::read(&own).unwrap(), fs::read(stored("m5.sheet")).unwrap());
    assert_eq!(left(), 4, "old, bad, link, own, and nothing unfinished");
}
