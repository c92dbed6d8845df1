//! What the sheet checker prints: a fault in one line, or else the rates, the
//! number of cues, the loading factor and whether the sheet is admitted.

use crate::sheet::{Assessment, Sheet};

/// The checker's whole output for an input.
pub fn report(input: &[u8]) -> String {
    match Sheet::from_bytes(input) {
        Err(fault) => format!("{fault}\n"),
        Ok(sheet) => report_on(&sheet),
    }
}

fn report_on(sheet: &Sheet) -> String {
    let rates: String = sheet
        .rates()
        .rates()
        .iter()
        .map(|rate| format!(" {rate}"))
        .collect();
    let cues = sheet.cues().len();
    let Assessment { load, overload } = sheet.assess();
    let (demand, length, start, end) = load;
    let verdict = match overload {
        None => "admitted".to_string(),
        Some(fault) => fault.to_string(),
    };
    format!("rates{rates}\ncues {cues}\nload {demand} of {length} in {start} to {end}\n{verdict}\n")
}
