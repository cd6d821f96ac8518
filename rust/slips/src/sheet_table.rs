//! The slips in the model's sheet, one at a time put into a copy.
use crate::table::{Slip, slip};

/// A slip that a comparison of sheets must show.
const fn sheet(name: &'static str, text: &'static str, slipped: &'static str) -> Slip {
    slip(name, "sheet", "sheet.rs", text, slipped)
}

/// All slips of the sheet.
pub const SHEET_SLIPS: [Slip; 57] = [
    sheet(
        "row numbers from 1",
        "SheetAnswer::refused(6, n)",
        "SheetAnswer::refused(6, n + 1)",
    ),
    sheet(
        "no row beside 2",
        "SheetAnswer::refused(2, n)",
        "SheetAnswer::refused(2, 0)",
    ),
    sheet(
        "a row beside 3",
        "SheetAnswer::refused(3, 0)",
        "SheetAnswer::refused(3, rows.len() - 1)",
    ),
    sheet(
        "the lowest row at fault",
        "(0..rows.len()).find(",
        "(0..rows.len()).rev().find(",
    ),
    sheet(
        "emits after the updates",
        "        let (s, words) = (&row.settings, &region[stretch(rows, n)]);\n",
        "        let (s, mut words) = (&row.settings, region[stretch(rows, n)].to_vec());\n        super::update(row.kind, s, tick.time, &inputs(row, tick, answers), &mut words);\n        let words = &words;\n",
    ),
    sheet(
        "the warning of the last row alone",
        "warning |= updated.warning;",
        "warning = updated.warning;",
    ),
    sheet(
        "the warning of the first row alone",
        "warning |= updated.warning;",
        "warning |= updated.warning && n == 0;",
    ),
    sheet(
        "stretches one word off",
        "lengths(&rows[..n])..lengths(&rows[..=n])",
        "lengths(&rows[..n]).saturating_sub(usize::from(n > 0))..lengths(&rows[..=n]).saturating_sub(usize::from(n > 0))",
    ),
    sheet(
        "stretches from the last row on",
        "lengths(&rows[..n])..lengths(&rows[..=n])",
        "lengths(&rows[n + 1..])..lengths(&rows[n..])",
    ),
    sheet(
        "6 and 7 tried row by row",
        "if let Some(n) = topmost(rows, damaged) {",
        "if let Some(n) = topmost(rows, damaged).filter(|n| !(0..*n).any(runs_back)) {",
    ),
    sheet(
        "7 before 6",
        "if let Some(n) = topmost(rows, damaged) {",
        "if let Some(n) = topmost(rows, runs_back) {\n        SheetAnswer::refused(7, n)\n    } else if let Some(n) = topmost(rows, damaged) {",
    ),
    sheet(
        "2 before 1",
        "    if rows.is_empty() ||",
        "    if let Some(n) = topmost(rows, settings_fault) {\n        SheetAnswer::refused(2, n)\n    } else if rows.is_empty() ||",
    ),
    sheet(
        "5 before 4",
        "    if answers.len() != 2 * rows.len() {",
        "    if !is_finite(tick.time) {\n        SheetAnswer::refused(5, 0)\n    } else if answers.len() != 2 * rows.len() {",
    ),
    sheet(
        "no second output",
        "[answer.real, boolean]",
        "[answer.real, 0]",
    ),
    sheet(
        "the outputs in the other order",
        "[answer.real, boolean]",
        "[boolean, answer.real]",
    ),
    sheet(
        "a boolean in the second word",
        "_ => [boolean, 0],",
        "_ => [0, boolean],",
    ),
    sheet(
        "the second input from the first column",
        "row.columns.map(",
        "[row.columns[0], row.columns[0], row.columns[2]].map(",
    ),
    sheet(
        "the third input from the second column",
        "row.columns.map(",
        "[row.columns[0], row.columns[1], row.columns[1]].map(",
    ),
    sheet("one row too many", "rows.len() > 16", "rows.len() > 17"),
    sheet("no rows taken", "rows.is_empty() || ", ""),
    sheet(
        "a column that its block does not read let through",
        "rows[n].columns.iter().any(",
        "rows[n].columns.iter().take(rows[n].kind.inputs().len()).any(",
    ),
    sheet(
        "the third column let through",
        "rows[n].columns.iter().any(",
        "rows[n].columns[..2].iter().any(",
    ),
    sheet(
        "a region that is too long taken",
        "region.len() != rows.iter()",
        "region.len() < rows.iter()",
    ),
    sheet(
        "an answer space that is too large taken",
        "answers.len() != 2 * rows.len()",
        "answers.len() < 2 * rows.len()",
    ),
    sheet(
        "a refused tick wipes the answers",
        "    let refused = tick_refusal(rows, tick, region, answers);\n",
        "    let refused = tick_refusal(rows, tick, region, answers);\n    answers.fill(0);\n",
    ),
    sheet(
        "a refused start wipes the region",
        "    let refused = start_refusal(rows, region);\n",
        "    let refused = start_refusal(rows, region);\n    region.fill(0);\n",
    ),
    sheet(
        "a start refuses words that are damaged",
        "    let refused = start_refusal(rows, region);\n    if refused.refusal != 0 {",
        "    let refused = start_refusal(rows, region);\n    let words = |n: usize| &region[stretch(rows, n)];\n    if refused.refusal != 0\n        || topmost(rows, |n| region_fault(rows[n].kind, &rows[n].settings, words(n))).is_some()\n    {",
    ),
    sheet(
        "the last row not started",
        "    for (n, row) in rows.iter().enumerate() {\n        super::start(",
        "    for (n, row) in rows.iter().enumerate().take(15) {\n        super::start(",
    ),
    sheet(
        "the last row not updated",
        "        warning |= updated.warning;\n    }\n",
        "        warning |= updated.warning;\n        if n == 14 {\n            break;\n        }\n    }\n",
    ),
    sheet(
        "a refused tick updates the rows above the one at fault",
        "    let refused = tick_refusal(rows, tick, region, answers);\n    if refused.refusal != 0 {",
        "    let refused = tick_refusal(rows, tick, region, answers);\n    if [6, 7].contains(&refused.refusal) {\n        for n in 0..refused.row as usize {\n            let (row, words) = (&rows[n], &mut region[stretch(rows, n)]);\n            super::update(row.kind, &row.settings, tick.time, &inputs(row, tick, answers), words);\n        }\n    }\n    if refused.refusal != 0 {",
    ),
    sheet(
        "a refused tick answers for the rows above the one at fault",
        "    let refused = tick_refusal(rows, tick, region, answers);\n    if refused.refusal != 0 {",
        "    let refused = tick_refusal(rows, tick, region, answers);\n    if [6, 7].contains(&refused.refusal) {\n        for n in 0..refused.row as usize {\n            let (row, words) = (&rows[n], &region[stretch(rows, n)]);\n            let emitted = super::emit(row.kind, &row.settings, tick.time, &inputs(row, tick, answers), words);\n            answers[2 * n..2 * n + 2].copy_from_slice(&outputs(row.kind, &emitted));\n        }\n    }\n    if refused.refusal != 0 {",
    ),
    sheet(
        "a region two words or more too long taken",
        "region.len() != rows.iter().map(row_length).sum::<usize>()",
        "region.len() < rows.iter().map(row_length).sum::<usize>()\n        || region.len() == 1 + rows.iter().map(row_length).sum::<usize>()",
    ),
    sheet(
        "a region's length compared by its low byte",
        "region.len() != rows.iter().map(row_length).sum::<usize>()",
        "region.len() as u8 != rows.iter().map(row_length).sum::<usize>() as u8",
    ),
    sheet(
        "an answer space a row or more too large taken",
        "answers.len() != 2 * rows.len()",
        "answers.len() < 2 * rows.len() || answers.len() % 2 == 1",
    ),
    sheet(
        "an answer space's length compared by its low byte",
        "answers.len() != 2 * rows.len()",
        "answers.len() as u8 != (2 * rows.len()) as u8",
    ),
    // rows that feed rows: which columns are taken
    sheet(
        "a row may read its own words",
        "(column - 8) / 2 >= n as u64",
        "(column - 8) / 2 > n as u64",
    ),
    sheet(
        "a row may read its own first word",
        "(column - 8) / 2 >= n as u64",
        "column - 8 > 2 * n as u64",
    ),
    sheet(
        "a row may read a later row's words as they were lent",
        "column_fault(n, *c)",
        "column_fault(rows.len(), *c)",
    ),
    sheet(
        "a row may not read the row above",
        "(column - 8) / 2 >= n as u64",
        "(column - 8) / 2 + 1 >= n as u64",
    ),
    sheet(
        "a row may not read the second word of the row above",
        "(column - 8) / 2 >= n as u64",
        "column - 8 + 1 >= 2 * n as u64",
    ),
    sheet(
        "no row may read another",
        "column >= 8 && (column - 8) / 2 >= n as u64",
        "column >= 8",
    ),
    sheet(
        "the first column alone tested",
        "rows[n].columns.iter().any(",
        "rows[n].columns[..1].iter().any(",
    ),
    sheet(
        "a row beside 1",
        "SheetAnswer::refused(1, 0)",
        "SheetAnswer::refused(1, topmost(rows, columns_fault).unwrap_or(0))",
    ),
    sheet(
        "a start tests no columns",
        "    let refused = start_refusal(rows, region);\n",
        "let all: Vec<Row> = rows.iter().map(|row| Row::new(row.kind, &row.settings, [0; 3])).collect();\n\
         let refused = start_refusal(&all, region);\n",
    ),
    // which word is handed on
    sheet(
        "a feeding column one word too far",
        "answers[column as usize - 8]",
        "answers[column as usize - 7]",
    ),
    sheet(
        "a feeding column counts rows",
        "answers[column as usize - 8]",
        "answers[2 * (column as usize - 8) % answers.len()]",
    ),
    sheet(
        "the second word of a row handed on as its first",
        "answers[column as usize - 8]",
        "answers[(column as usize - 8) & !1]",
    ),
    sheet(
        "a word handed on as it was lent",
        "    let mut seen = vec![];\n",
        "let lent = answers.to_vec();\n\
         let inputs = |row: &Row, tick: &Tick, _: &[u64]| inputs(row, tick, &lent);\n\
         let mut seen = vec![];\n",
    ),
    sheet(
        "a row reads what the rows above answer after their updates",
        "    let mut seen = vec![];\n",
        "let mut after = vec![];\n\
         for (n, row) in rows.iter().enumerate() {\n\
         let (s, mut words) = (&row.settings, region[stretch(rows, n)].to_vec());\n\
         let received = inputs(row, tick, &after);\n\
         super::update(row.kind, s, tick.time, &received, &mut words);\n\
         let emitted = super::emit(row.kind, s, tick.time, &received, &words);\n\
         after.extend(outputs(row.kind, &emitted));\n\
         }\n\
         let inputs = |row: &Row, tick: &Tick, _: &[u64]| inputs(row, tick, &after);\n\
         let mut seen = vec![];\n",
    ),
    // as what it is handed on
    sheet(
        "a fed true handed on as 1.0",
        "_ => answers[column as usize - 8],",
        "_ if answers[column as usize - 8] == 1 => 1f64.to_bits(),\n\
         _ => answers[column as usize - 8],",
    ),
    sheet(
        "a fed word handed on as a boolean",
        "_ => answers[column as usize - 8],",
        "_ => u64::from(answers[column as usize - 8] != 0),",
    ),
    sheet(
        "a fed -0.0 handed on as 0.0",
        "_ => answers[column as usize - 8],",
        "_ if answers[column as usize - 8] == 1 << 63 => 0,\n        _ => answers[column as usize - 8],",
    ),
    sheet(
        "a fed NaN handed on as 0.0",
        "_ => answers[column as usize - 8],",
        "_ if f64::from_bits(answers[column as usize - 8]).is_nan() => 0,\n\
         _ => answers[column as usize - 8],",
    ),
    sheet(
        "a fed subnormal handed on as 0.0",
        "_ => answers[column as usize - 8],",
        "_ if f64::from_bits(answers[column as usize - 8]).is_subnormal() => 0,\n\
         _ => answers[column as usize - 8],",
    ),
    // the updates
    sheet(
        "an update on the answers as they were lent",
        "    let mut seen = vec![];\n",
        "    let mut seen: Vec<_> = rows.iter().map(|row| inputs(row, tick, answers)).collect();\n",
    ),
    sheet(
        "an update on zeros where its emit was fed",
        "&seen[n], words)",
        "&row.columns.map(|column| tick.words.get(column as usize).map_or(0, |word| *word)), words)",
    ),
    sheet(
        "an update on the inputs of the row above",
        "&seen[n], words)",
        "&seen[n.saturating_sub(1)], words)",
    ),
];
