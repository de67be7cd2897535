//! Many answers at once: files and folders, CSV, the same output on any number of threads, files that cannot be read.
use sorzibelu::mark::{run, Options, Question, Status};
use std::{
    fs,
    io::{self, Write},
    path::Path,
};

#[path = "../../sorzibelu/tests/common/folder.rs"]
mod folder;
use folder::folder;

const RIGHT: &str = "0 0000000000000003 0000000000000003\n1 0000000000000003 0000000000000003\n2 0000000000000002 0000000000000002\n3 0000000000000002 0000000000000000\ntaken 7\n";

fn m2() -> Question {
    Question::of_file(&fs::read(concat!(env!("CARGO_MANIFEST_DIR"), "/../../sheets/m2.sheet")).unwrap()).unwrap()
}

/// Status, what goes out, errors, and how often progress was told.
fn marked(options: &Options) -> (Status, String, String, usize) {
    let (mut out, mut err, mut told) = (vec![], vec![], 0);
    let status = run(&m2(), options, &mut out, &mut err, &mut |done, all| {
        told += 1;
        assert!(done == told && done <= all);
    });
    (status.unwrap(), String::from_utf8(out).unwrap(), String::from_utf8(err).unwrap(), told)
}

#[test]
fn one_answer() {
    let dir = folder("one_answer");
    let answer = dir.join("a");
    for (text, status, says) in [
        (RIGHT.to_string(), Status::AllRight, "5 of 5 right\n"),
        (RIGHT.replace("taken 7", "taken 8"), Status::NotAllRight, "wrong      taken: 8 should be 7\n4 of 5 right, 1 wrong\n"),
        (RIGHT.replace("taken", "took"), Status::NotAllRight, "unread     line 5: 'took' is no number"),
    ] {
        fs::write(&answer, text).unwrap();
        let (got, out, err, told) = marked(&Options { answers: vec![answer.clone()], ..Default::default() });
        assert!(got == status && out.starts_with(says) && err.is_empty() && told == 1, "{out} {err}");
    }
    fs::write(&answer, format!("flow\n0 1 2 2 3\n2 3 3 1\nblocks 2\n\nlive\n{RIGHT}")).unwrap();
    let (status, out, ..) = marked(&Options { answers: vec![answer.clone()], ..Default::default() });
    assert_eq!((status, &out[..]), (Status::AllRight, "flow\n3 of 3 right\n\nlive\n5 of 5 right\n\n"));
    let (_, out, ..) = marked(&Options { answers: vec![answer], csv: true, ..Default::default() });
    assert_eq!(out.lines().count(), 3);
    assert_eq!([Status::AllRight, Status::NotAllRight, Status::Failed].map(Status::code), [0, 1, 2]);
}

#[test]
fn folders_on_any_number_of_threads() {
    let dir = folder("folders");
    fs::create_dir_all(dir.join("b/c")).unwrap();
    for i in 0..200 {
        let text = match i % 4 {
            0 => RIGHT.to_string(),
            1 => RIGHT.replacen("3 0", "1 0", 1 + i / 4 % 3),
            2 => RIGHT.replace("2 0000000000000002", "2 t0,t5"),
            _ => format!("{RIGHT}x\n").repeat(1 + i % 50),
        };
        fs::write(dir.join(["a", "b", "b/c"][i % 3].replace('a', ".")).join(format!("{i:03}.txt")), text).unwrap();
    }
    fs::write(dir.join(".hidden"), RIGHT).unwrap();
    fs::write(dir.join("b/bytes, \"quoted\""), [0; 9]).unwrap();
    #[cfg(unix)]
    std::os::unix::fs::symlink(&dir, dir.join("b/c/round")).unwrap();
    for csv in [false, true] {
        let options = |threads: usize| Options { answers: vec![dir.to_path_buf()], csv, threads, kind: None };
        let first = marked(&options(1));
        assert!(first.0 == Status::Failed && first.3 == 201, "{} {}", first.3, first.2);
        assert!(first.2.ends_with("b/bytes, \"quoted\": not a text\n") && first.2.lines().count() == 1, "{}", first.2);
        for threads in [0, 2, 3, 16] {
            assert_eq!(marked(&options(threads)), first);
        }
        if csv {
            let name = dir.display();
            let lines: Vec<&str> = first.1.lines().collect();
            assert_eq!(lines.len(), 202);
            assert_eq!(lines[0], "file,kind,asked,right,wrong,missing,follows,not_least,extra,twice,unread,percent,note");
            assert_eq!(lines[1], format!("{name}/000.txt,live,5,5,0,0,0,0,0,0,0,100.0,"));
            assert!(lines.contains(&&format!("\"{name}/b/bytes, \"\"quoted\"\"\",,,,,,,,,,,,not a text")[..]), "{}", first.1);
            let columns = |l: &&str| l.matches(',').count() == 12 || l.contains("quoted");
            assert!(lines.iter().all(columns));
        } else {
            assert!(first.1.ends_with("\n201 answers: 50 all right, 150 not, 1 not marked\n"), "{}", &first.1[first.1.len() - 100..]);
        }
    }
}

#[test]
fn files_that_cannot_be_read() {
    let dir = folder("unread");
    let (empty, answer, missing) = (dir.join("empty"), dir.join("a"), dir.join("missing"));
    fs::create_dir_all(&empty).unwrap();
    fs::write(&answer, RIGHT).unwrap();
    let (status, out, err, _) = marked(&Options { answers: vec![missing.clone(), empty.clone(), answer.clone()], ..Default::default() });
    assert_eq!(status, Status::Failed);
    assert!(out.contains("a: live\n5 of 5 right\n"), "{out}");
    let lines: Vec<&str> = err.lines().collect();
    assert!(lines[0].starts_with(&format!("{}: No such file", missing.display())) && lines[1] == format!("{}: no answer in this folder", empty.display()), "{err}");
    let (status, out, err, _) = marked(&Options { answers: vec![missing], csv: true, ..Default::default() });
    assert!(status == Status::Failed && out.lines().count() == 2 && err.lines().count() == 1);
    if Path::new("/dev/zero").exists() {
        let (status, _, err, _) = marked(&Options { answers: vec!["/dev/zero".into()], ..Default::default() });
        assert_eq!((status, &err[..]), (Status::Failed, "/dev/zero: more than 64 MiB, and no answer is so long\n"));
    }
}

/// An output that takes so many bytes, and then no more.
struct Full(usize);

impl Write for Full {
    fn write(&mut self, bytes: &[u8]) -> io::Result<usize> {
        if self.0 < bytes.len() {
            return Err(io::ErrorKind::StorageFull.into());
        }
        self.0 -= bytes.len();
        Ok(bytes.len())
    }

    fn flush(&mut self) -> io::Result<()> {
        Ok(())
    }
}

#[test]
fn an_output_that_is_full() {
    let dir = folder("full");
    (0..100).for_each(|i| fs::write(dir.join(i.to_string()), RIGHT).unwrap());
    for room in [0, 10, 1_000] {
        for csv in [false, true] {
            let options = Options { answers: vec![dir.to_path_buf()], csv, threads: 4, kind: None };
            let status = run(&m2(), &options, &mut Full(room), &mut Full(0), &mut |_, _| {});
            assert_eq!(status.unwrap_err().kind(), io::ErrorKind::StorageFull);
        }
    }
}
