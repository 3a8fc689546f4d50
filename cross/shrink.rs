//! Makes a case that differs smaller: takes rows and columns away and gives labels one value, for as long as the two
//! sides still differ on what the kind does with the sheet.

use crate::kinds::{Both, Difference, Kind};
use crate::naive::WIDEST;
use crate::sheets::{Random, Sheet};
use std::time::{Duration, Instant};

/// How long smaller cases are sought.
const PATIENCE: Duration = Duration::from_secs(60);
/// A smaller sheet gets other calls from the same seed, so so many seeds are tried.
const SEEDS: u64 = 16;

/// Sheets a little smaller than this one, the smallest first.
fn smaller(sheet: &Sheet) -> Vec<Sheet> {
    let columns: Vec<usize> = (0..sheet.size.width).collect();
    let rows: Vec<usize> = (0..sheet.size.height).collect();
    let mut sheets = Vec::new();
    for parts in [2, 4, 8, WIDEST as usize] {
        for rest in without_a_part(&rows, parts) {
            sheets.push(sheet.part(&columns, &rest));
        }
        for rest in without_a_part(&columns, parts) {
            sheets.push(sheet.part(&rest, &rows));
        }
    }
    let palette = sheet.palette();
    for pair in palette.windows(2) {
        sheets.push(sheet.relabelled(|label| if label == pair[1] { pair[0] } else { label }));
    }
    let plain = |label: u16| palette.iter().position(|&old| old == label).expect("a label") as u16 + 65;
    if sheet.labels.iter().any(|&label| plain(label) != label) {
        sheets.push(sheet.relabelled(plain));
    }
    sheets
}

/// The list without each of so many parts of it in turn; never empty.
fn without_a_part(list: &[usize], parts: usize) -> Vec<Vec<usize>> {
    let length = list.len().div_ceil(parts);
    let rest = |part: &[usize]| list.iter().copied().filter(|k| !part.contains(k)).collect::<Vec<_>>();
    list.chunks(length).map(rest).filter(|rest| !rest.is_empty()).collect()
}

/// A sheet a little smaller on which the two sides differ, with how, and the seed of the calls.
fn found(both: &mut Both, kind: &Kind, sheet: &Sheet, seed: u64, until: Instant) -> Option<(Sheet, Difference, u64)> {
    let candidates = smaller(sheet);
    for seed in seed..seed + SEEDS {
        for candidate in &candidates {
            if Instant::now() > until {
                return None;
            }
            if let Err(difference) = (kind.compare)(both, candidate, &mut Random(seed)) {
                return Some((candidate.clone(), difference, seed));
            }
        }
    }
    None
}

/// Prints the smallest case found.
pub fn report(both: &mut Both, kind: &Kind, sheet: Sheet, seed: u64, difference: Difference) {
    eprintln!("cross: looking for a smaller case, for at most {} s", PATIENCE.as_secs());
    let until = Instant::now() + PATIENCE;
    let (mut sheet, mut difference, mut seed) = (sheet, difference, seed);
    while let Some(smaller) = found(both, kind, &sheet, seed, until) {
        (sheet, difference, seed) = smaller;
    }
    println!("smallest found: {} by {}", sheet.size.width, sheet.size.height);
    for row in sheet.labels.chunks(sheet.size.width) {
        println!("  {}", row.iter().map(u16::to_string).collect::<Vec<_>>().join(" "));
    }
    let request = &difference.request;
    println!("  {:?} with numbers {:?}: {}", request.call, request.numbers, difference.what);
    for (name, table) in request.call.tables().iter().zip(&request.tables) {
        let shown: Vec<String> = table.iter().take(64).map(u16::to_string).collect();
        println!("  {name}, length {}: {}", table.len(), shown.join(" "));
    }
    if !request.bytes.is_empty() {
        println!("  bytes, length {}: {:?}", request.bytes.len(), String::from_utf8_lossy(&request.bytes));
    }
}
