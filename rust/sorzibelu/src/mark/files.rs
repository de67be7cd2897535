//! Many answers at once: files and folders, on all cores, with the same output whatever their number.
use super::{
    report::{row, unread_row, Report, COLUMNS},
    Kind, Question,
};
use std::{
    collections::BTreeMap,
    fs,
    io::{self, Read, Write},
    path::{Path, PathBuf},
    sync::{
        atomic::{AtomicUsize, Ordering},
        mpsc,
    },
    thread,
};

/// No answer is longer.
const MOST_BYTES: u64 = 64 << 20;

/// What is marked, and how it is told.
#[derive(Clone, Debug, Default)]
pub struct Options {
    /// Files, folders (all files in them, and in theirs, by name; names that start with a dot are left out), or `-` for standard input.
    pub answers: Vec<PathBuf>,
    /// The kind of every answer; without it, as each answer's first word names it.
    pub kind: Option<Kind>,
    /// One line of CSV for each answer, or for each part of one that has several, under a line that names the columns.
    pub csv: bool,
    /// How many threads; 0 for as many as there are cores.
    pub threads: usize,
}

/// How it went.
#[derive(Clone, Copy, Debug, PartialEq, Eq, PartialOrd, Ord)]
pub enum Status {
    /// All is right.
    AllRight,
    /// Something is wrong or missing.
    NotAllRight,
    /// A file could not be read or marked; the others were.
    Failed,
}

impl Status {
    /// 0, 1 or 2, for a command to end with.
    ///
    /// ```
    /// assert_eq!(sorzibelu::mark::Status::NotAllRight.code(), 1);
    /// ```
    pub fn code(self) -> u8 {
        self as u8
    }
}

/// The files of a path, in order; a folder's own are sorted by name.
fn gather(path: &Path, all: &mut Vec<Result<PathBuf, (PathBuf, String)>>) {
    if !path.is_dir() {
        all.push(Ok(path.into()));
        return;
    }
    let before = all.len();
    match walk(path, all) {
        Err(e) => all.push(Err((path.into(), e.to_string()))),
        Ok(()) if all.len() == before => all.push(Err((path.into(), "no answer in this folder".into()))),
        Ok(()) => {}
    }
}

fn walk(folder: &Path, all: &mut Vec<Result<PathBuf, (PathBuf, String)>>) -> io::Result<()> {
    let mut entries: Vec<fs::DirEntry> = fs::read_dir(folder)?.collect::<Result<_, _>>()?;
    entries.sort_by_key(|e| e.file_name());
    for e in entries.iter().filter(|e| !e.file_name().to_string_lossy().starts_with('.')) {
        // a link to a folder is not followed: it could lead round
        if e.file_type()?.is_dir() {
            if let Err(why) = walk(&e.path(), all) {
                all.push(Err((e.path(), why.to_string())));
            }
        } else if !e.path().is_dir() {
            all.push(Ok(e.path()));
        }
    }
    Ok(())
}

fn read(path: &Path) -> Result<Vec<u8>, String> {
    let mut bytes = vec![];
    let reader: Box<dyn Read> = if path == Path::new("-") { Box::new(io::stdin()) } else { Box::new(fs::File::open(path).map_err(|e| e.to_string())?) };
    reader.take(MOST_BYTES + 1).read_to_end(&mut bytes).map_err(|e| e.to_string())?;
    if bytes.len() as u64 > MOST_BYTES {
        return Err("more than 64 MiB, and no answer is so long".into());
    }
    Ok(bytes)
}

/// What is said of one answer: what goes out, what goes to the errors, how it went.
struct Told {
    out: String,
    err: String,
    status: Status,
}

fn tell(question: &Question, options: &Options, path: &Path, bytes: Result<Vec<u8>, String>, many: bool) -> Told {
    let name = path.display().to_string();
    match bytes.and_then(|b| question.marks(&b, options.kind)) {
        Err(why) => Told { out: if options.csv { unread_row(&name, &why) } else { String::new() }, err: format!("{name}: {why}\n"), status: Status::Failed },
        Ok(reports) => {
            let out = reports.iter().map(|report| match (options.csv, many, reports.len()) {
                (true, ..) => row(&name, report),
                (false, true, _) => format!("{name}: {}\n{report}\n", report.kind),
                (false, false, 1) => report.to_string(),
                (false, false, _) => format!("{}\n{report}\n", report.kind),
            });
            let status = if reports.iter().all(Report::all_right) { Status::AllRight } else { Status::NotAllRight };
            Told { out: out.collect(), err: String::new(), status }
        }
    }
}

/// Marks every answer and writes what is found: to `out` in the order of the answers, to `err` a line for each file that could not be read or marked.
/// `progress` is told how many are done and how many there are.
///
/// ```
/// use sorzibelu::mark::{run, Options, Question, Status};
/// let question = Question::of_file(b"locals 1 user 1 parameters 1 references\nret t0\n").unwrap();
/// let options = Options { answers: vec!["no/such/file".into()], ..Options::default() };
/// let (mut out, mut err) = (vec![], vec![]);
/// let status = run(&question, &options, &mut out, &mut err, &mut |_done, _all| {}).unwrap();
/// assert_eq!(status, Status::Failed);
/// assert!(out.is_empty() && err.starts_with(b"no/such/file: "));
/// ```
pub fn run(question: &Question, options: &Options, out: &mut dyn Write, err: &mut dyn Write, progress: &mut dyn FnMut(usize, usize)) -> io::Result<Status> {
    let mut files = vec![];
    options.answers.iter().for_each(|p| gather(p, &mut files));
    let many = files.len() > 1;
    if options.csv {
        writeln!(out, "{COLUMNS}")?;
    }
    let cores = thread::available_parallelism().map_or(1, |n| n.get());
    let threads = if options.threads == 0 { cores } else { options.threads }.clamp(1, files.len().max(1));
    let next = AtomicUsize::new(0);
    let files = &files;
    let mut counts = [0; 3];
    thread::scope(|scope| {
        // no thread is far ahead of what is written
        let (send, receive) = mpsc::sync_channel(4 * threads);
        for _ in 0..threads {
            let (send, next) = (send.clone(), &next);
            scope.spawn(move || {
                while let Some((i, file)) = { let i = next.fetch_add(1, Ordering::Relaxed); files.get(i).map(|f| (i, f)) } {
                    let told = match file {
                        Ok(path) => tell(question, options, path, read(path), many),
                        Err((path, why)) => tell(question, options, path, Err(why.clone()), many),
                    };
                    if send.send((i, told)).is_err() {
                        break;
                    }
                }
            });
        }
        drop(send);
        let mut waiting: BTreeMap<usize, Told> = BTreeMap::new();
        let mut written = 0;
        for (done, (i, told)) in receive.iter().enumerate() {
            progress(done + 1, files.len());
            waiting.insert(i, told);
            while let Some(told) = waiting.remove(&written) {
                out.write_all(told.out.as_bytes())?;
                err.write_all(told.err.as_bytes())?;
                counts[told.status as usize] += 1;
                written += 1;
            }
        }
        if many && !options.csv {
            writeln!(out, "{} answers: {} all right, {} not, {} not marked", files.len(), counts[0], counts[1], counts[2])?;
        }
        io::Result::Ok(())
    })?;
    out.flush()?;
    Ok(if counts[2] > 0 {
        Status::Failed
    } else if counts[1] > 0 {
        Status::NotAllRight
    } else {
        Status::AllRight
    })
}
