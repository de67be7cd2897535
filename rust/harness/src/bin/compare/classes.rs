//! Class sets: the call beside the original's answer to each sheet that is accepted, and the plain reading's refusals.
use crate::judge::*;
use harness::{
    Bytes,
    lent::lend_class,
    oracle::*,
    plain::{self, Alone, Class, SHEET_NUMBERS, SHEET_SETS},
};
use sorzibelu::{class_sheets, live_class, sheet::*};

/// What was seen of class sets, and of the sheets of those that are answered.
#[derive(Default)]
pub struct Classes {
    pub whole: Part,
    pub each: Part,
}

/// The original's answer to live: the sets, then the count.
fn alone(answer: &Answer) -> Alone {
    theirs(answer).map(|mut data| {
        let count = data.split_off(data.len() - 4);
        (data, u32::from_le_bytes([count[0], count[1], count[2], count[3]]))
    })
}

impl Run {
    /// What a class set must get with enough lent: where a sheet is accepted the original's answer, else the plain reading's. How often the original was asked.
    fn wanted(&mut self, s: &[u8]) -> (Class, usize) {
        let sheets = match plain::cut(s) {
            Ok(sheets) => sheets,
            Err(refused) => return (Err(refused), 0),
        };
        let accepted: Vec<(u8, &[u8])> = sheets.iter().filter(|s| plain::check(s).is_ok()).map(|s| (LIVE, &s[..])).collect();
        let mut answers = pump(&mut self.oracle, &accepted).into_iter();
        let each = sheets.iter().map(|s| plain::check(s).and_then(|()| alone(&answers.next().expect("an answer"))));
        (Ok(each.collect()), accepted.len())
    }

    /// The call with each of its two outputs exact, short, empty and long.
    fn judge_class(&mut self, s: &[u8], wanted: &Class) -> Result<(), String> {
        let sheets = wanted.as_ref().map_or(0, Vec::len);
        let (bytes, numbers) = (SHEET_SETS * sheets, SHEET_NUMBERS * sheets);
        let mut rooms: Vec<(usize, usize, Class)> = self.rooms(bytes, wanted).into_iter().map(|(b, w)| (b, numbers, w)).collect();
        rooms.extend(self.rooms(numbers, wanted).into_iter().map(|(n, w)| (bytes, n, w)));
        for (b, n, wanted) in rooms {
            // the plain reading of the room too
            if wanted.is_err() {
                same("class set; here the plain reading", plain::live_class(s, b, n, plain::alone), wanted.clone())?;
            }
            lend_class(b, n, self.turn, &wanted, |sets, answers| live_class(s, sets, answers)).map_err(|e| format!("class set: {e}"))?;
        }
        Ok(())
    }

    pub fn class_set(&mut self, seen: &mut Classes, s: &[u8]) {
        let (wanted, questions) = self.wanted(s);
        seen.whole.sheets += 1;
        seen.each.questions += questions;
        match &wanted {
            Err((number, _)) => *seen.whole.met.entry(*number).or_default() += 1,
            Ok(sheets) => {
                seen.whole.accepted += 1;
                // asked with too little lent, too
                *seen.whole.met.entry(9).or_default() += 1;
                seen.each.sheets += sheets.len();
                seen.each.accepted += sheets.iter().flatten().count();
                for (number, _) in sheets.iter().filter_map(|s| s.as_ref().err()) {
                    *seen.each.met.entry(*number).or_default() += 1;
                }
            }
        }
        if self.judge_class(s, &wanted).is_err() {
            seen.whole.differences += 1;
            if self.smallest_class.as_ref().is_none_or(|t| s.len() < t.len()) {
                self.smallest_class = Some(s.to_vec());
            }
        }
    }

    fn class_differs(&mut self, s: &[u8]) -> Option<String> {
        let (wanted, _) = self.wanted(s);
        self.judge_class(s, &wanted).err()
    }

    /// Drops sheets, then puts a Ret alone in the place of one, while the class set still differs; then prints it.
    pub fn print_class(&mut self, s: &[u8]) {
        let ret = Sheet { code: vec![Instruction::new(RET)], ..Default::default() }.bytes();
        let mut sheets: Vec<Vec<u8>> = class_sheets(s).into_iter().map(<[u8]>::to_vec).collect();
        let with = |sheets: &[Vec<u8>], k: usize, new: &[Vec<u8>]| [&sheets[..k], new, &sheets[k + 1..]].concat();
        while let Some(fewer) = (0..sheets.len()).map(|k| with(&sheets, k, &[])).find(|fewer| self.class_differs(&fewer.concat()).is_some()) {
            sheets = fewer;
        }
        for k in 0..sheets.len() {
            let plainer = with(&sheets, k, std::slice::from_ref(&ret));
            if self.class_differs(&plainer.concat()).is_some() {
                sheets = plainer;
            }
        }
        println!("a class set of {} sheets", sheets.len());
        let difference = self.class_differs(&sheets.concat()).unwrap_or_default();
        for (k, sheet) in sheets.into_iter().enumerate() {
            print!("sheet {k}, {} bytes\n{}", sheet.len(), show_sheet(&Ok(sheet)));
        }
        println!("{difference}");
    }
}
