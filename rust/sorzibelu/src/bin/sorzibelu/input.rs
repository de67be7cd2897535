//! What is read: a file or standard input, a sheet's bytes or its text, a graph or a pair.
use crate::output::{self, End, Status};
use sorzibelu::{
    graph, sheet,
    text::{self, Faults},
    Refusal,
};
use std::{
    fs,
    io::{self, Read},
    path::Path,
};

/// No sheet, no 16 of them and no text of one is longer.
const MOST: u64 = 64 << 20;

/// How a file is called in what is said about it.
pub fn called(file: &Path) -> String {
    if file.as_os_str() == "-" {
        return "standard input".into();
    }
    if file.as_os_str().is_empty() {
        return "''".into();
    }
    file.display().to_string()
}

fn trouble(file: &Path, why: impl std::fmt::Display) -> End {
    End::Trouble(format!("{}: {why}", called(file)))
}

/// The bytes of a file, or of standard input for `-`.
pub fn read(file: &Path) -> Result<Vec<u8>, End> {
    let from: Box<dyn Read> = match file.as_os_str() == "-" {
        true => Box::new(io::stdin().lock()),
        false => Box::new(fs::File::open(file).map_err(|e| trouble(file, e))?),
    };
    let mut bytes = vec![];
    from.take(MOST + 1).read_to_end(&mut bytes).map_err(|e| trouble(file, e))?;
    if bytes.len() as u64 > MOST {
        return Err(trouble(file, "more than 64 MiB, which is no sheet, no class set and no text of one"));
    }
    Ok(bytes)
}

/// A text where the bytes are one: no byte is 0, as some of every sheet are, and most are letters, signs and blanks.
fn is_text(bytes: &[u8]) -> bool {
    let plain = bytes.iter().filter(|b| b.is_ascii_graphic() || b.is_ascii_whitespace()).count();
    !bytes.is_empty() && !bytes.contains(&0) && 2 * plain > bytes.len()
}

/// The text of a file; what is no UTF-8 is told with its line.
pub fn text_of(file: &Path, bytes: Vec<u8>) -> Result<String, End> {
    if bytes.starts_with(&[0xff, 0xfe]) || bytes.starts_with(&[0xfe, 0xff]) {
        return Err(trouble(file, "a text in UTF-16: it has to be saved as UTF-8"));
    }
    if bytes.is_empty() {
        return Err(trouble(file, "the file is empty"));
    }
    if !is_text(&bytes) {
        return Err(trouble(file, "bytes, where a text should stand"));
    }
    String::from_utf8(bytes).map_err(|e| {
        let line = 1 + e.as_bytes()[..e.utf8_error().valid_up_to()].iter().filter(|b| **b == b'\n').count();
        trouble(file, format!("line {line}: a letter that is not UTF-8"))
    })
}

/// Trouble in one or more lines, each with the file's name.
pub fn each_line(file: &Path, why: &str) -> End {
    End::Trouble(why.lines().map(|l| format!("{}: {l}", called(file))).collect::<Vec<_>>().join("\n"))
}

/// Every fault in a line of its own.
pub fn faults(file: &Path, faults: &Faults) -> End {
    each_line(file, &faults.to_string())
}

/// A sheet's bytes, and the text that they were written down in.
pub struct Given {
    pub bytes: Vec<u8>,
    text: Option<text::Written>,
}

/// The sheet of a file.
pub fn sheet(file: &Path) -> Result<Given, End> {
    of_bytes(file, read(file)?)
}

/// The sheet that a file's bytes are, or that their text writes down.
fn of_bytes(file: &Path, bytes: Vec<u8>) -> Result<Given, End> {
    let wide = bytes.starts_with(&[0xff, 0xfe]) || bytes.starts_with(&[0xfe, 0xff]);
    if !wide && !is_text(&bytes) {
        return Ok(Given { bytes, text: None });
    }
    of_text(file, &text_of(file, bytes)?)
}

/// The sheet that a text writes down.
pub fn of_text(file: &Path, text: &str) -> Result<Given, End> {
    if graph::is_text(text) {
        return Err(trouble(file, "a graph, where a sheet should stand"));
    }
    let written = text::read(text).map_err(|f| faults(file, &f))?;
    Ok(Given { bytes: written.bytes.clone(), text: Some(written) })
}

impl Given {
    /// What a refusal means, with the line of the text where there is one.
    pub fn why(&self, refusal: Refusal) -> String {
        let line = match (&self.text, refusal.number()) {
            (Some(written), 2..=8 | 15 | 18) => format!("line {}, ", written.fault(refusal).line),
            _ => String::new(),
        };
        line + &sheet::why(&self.bytes, refusal)
    }

    /// Prints a refusal.
    pub fn refuse(&self, refusal: Refusal) -> Result<Status, End> {
        output::refuse(refusal, &self.why(refusal))
    }
}

/// What a file can be.
pub enum Either {
    Sheet(Given),
    Graphs(graph::Written),
}

/// The sheet, the graph or the pair of a file.
pub fn either(file: &Path) -> Result<Either, End> {
    let bytes = read(file)?;
    match std::str::from_utf8(&bytes) {
        Ok(text) if graph::is_text(text) => graph::read(text).map(Either::Graphs).map_err(|f| faults(file, &f)),
        _ => of_bytes(file, bytes).map(Either::Sheet),
    }
}

/// The graph or the pair of a file.
pub fn graphs(file: &Path) -> Result<graph::Written, End> {
    let text = text_of(file, read(file)?)?;
    if !graph::is_text(&text) && text::read(&text).is_ok() {
        return Err(trouble(file, "a sheet, where a graph should stand"));
    }
    graph::read(&text).map_err(|f| faults(file, &f))
}
