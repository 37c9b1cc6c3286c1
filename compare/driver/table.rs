//! The tables, as Markdown: the classes, the means beside the toolchain, of each call the case that takes most, if one
//! is told, and all cases.
use crate::cases::Case;
use crate::{Measured, SIDES};

// The classes, what is in each, and the most that a case may take, in instructions to the better of the other two.
const CLASSES: [(&str, &str, &str); 6] = [
    ("short", "slices, cursors, the buffers, `bytes`, lines, `split`, seeks", "1.00; above 32 bytes 1.25"),
    ("long", "`Chain`, `Take`, references, boxes, frames, buffers that are made and dropped", "1.25"),
    ("fields", "a struct's fields, appended to a `Vec` or to a cursor on one", "1.40"),
    ("append", "other appends", "1.40; above 32 bytes 1.75"),
    ("whole", "`copy`, `read_to_end`, `read_to_string`, `stream_position`, `write!`, queues, long frames", "none"),
    ("client", "what stands on this library, each beside a crate of Rust over std", "1.25"),
];

// What one case took on each side.
type Row<'a> = (&'a Case, &'a [Option<f64>; SIDES], &'a [Option<f64>; SIDES]);

fn most(case: &Case) -> f64 {
    match case.class {
        "short" if case.size <= 32 => 1.0,
        "short" | "long" | "client" => 1.25,
        "fields" => 1.4,
        "append" if case.size <= 32 => 1.4,
        "append" => 1.75,
        _ => f64::INFINITY,
    }
}

// This library to the better of std and the original crate.
fn ratio(values: &[Option<f64>; SIDES]) -> Option<f64> {
    let better = values[1..3].iter().flatten().copied().reduce(f64::min)?;
    Some(values[0]? / better)
}

fn mean(ratios: &[f64]) -> f64 {
    (ratios.iter().map(|it| it.ln()).sum::<f64>() / ratios.len() as f64).exp()
}

// Over how many cases the toolchain's side has a value, and the mean of the ratios to it. README has these numbers.
fn beside_kit(values: &Measured) -> (usize, f64) {
    let ratios: Vec<f64> = values.iter().filter_map(|it| Some(it[0]? / it[3]?)).collect();
    (ratios.len(), mean(&ratios))
}

// Whether a case takes more than this.
fn is_above((_, _, counts): &Row, most: f64) -> bool {
    ratio(counts).is_some_and(|it| it > most + 0.005)
}

// The last cell of a case's line: `*` if it is above its class's limit, and the class if that tells all above 1.1.
fn mark(row: &Row) -> &'static str {
    match (row.0.class, is_above(row, most(row.0))) {
        ("client", true) => "client *",
        ("whole" | "client", _) if is_above(row, 1.1) => row.0.class,
        (_, true) => "*",
        _ => "",
    }
}

fn print_classes(rows: &[Row]) {
    println!("| class | what | limit | cases | above | mean | most | mean, ns |\n|---|---|---|--:|--:|--:|--:|--:|");
    for (class, what, limit) in CLASSES {
        let mine: Vec<&Row> = rows.iter().filter(|row| row.0.class == class).collect();
        let counts: Vec<f64> = mine.iter().filter_map(|row| ratio(row.2)).collect();
        let times: Vec<f64> = mine.iter().filter_map(|row| ratio(row.1)).collect();
        let above = mine.iter().filter(|row| mark(row).ends_with('*')).count();
        let greatest = counts.iter().copied().fold(0.0, f64::max);
        println!(
            "| {class} | {what} | {limit} | {} | {above} | {:.2} | {greatest:.2} | {:.2} |",
            counts.len(),
            mean(&counts),
            mean(&times)
        );
    }
}

/// Prints all tables. A line of the last one has nanoseconds and instructions a call on each side, and of both the
/// ratio; a `k` behind a number is a thousand.
pub fn print(cases: &[Case], times: &Measured, counts: &Measured) {
    let rows: Vec<Row> = cases.iter().zip(times).zip(counts).map(|((case, times), counts)| (case, times, counts)).collect();
    print_classes(&rows);
    let ((count, fewer), (_, faster)) = (beside_kit(counts), beside_kit(times));
    print!("\nBeside the toolchain's `std::io`: {count} cases, {fewer:.2} of its instructions, {faster:.2} of its time.\n");
    println!("\n| a call | ours | std | original | kit | ratio | |\n|---|--:|--:|--:|--:|--:|---|");
    for sizes in rows.chunk_by(|one, other| one.0.call == other.0.call) {
        let told = sizes.iter().filter(|row| !mark(row).is_empty());
        let taken = |row: &&Row| ratio(row.2).unwrap_or(0.0);
        if let Some(row) = told.max_by(|one, other| taken(one).total_cmp(&taken(other))) {
            println!("| {} |{} {} |", row.0.name, cells(row.2), mark(row));
        }
    }
    println!("\n<!-- all cases -->\n");
    println!("| a call | ns ours | std | original | kit | ratio | instr. ours | std | original | kit | ratio | |");
    println!("|---|--:|--:|--:|--:|--:|--:|--:|--:|--:|--:|---|");
    for row in &rows {
        println!("| {} |{}{} {} |", row.0.name, cells(row.1), cells(row.2), mark(row));
    }
}

fn cells(values: &[Option<f64>; SIDES]) -> String {
    let mut cells = String::new();
    for value in values {
        cells += &match value {
            Some(value) if *value < 100.0 => format!(" {value:.1} |"),
            Some(value) if *value < 1e5 => format!(" {value:.0} |"),
            Some(value) => format!(" {:.0}k |", value / 1e3),
            None => String::from(" - |"),
        };
    }
    cells + &ratio(values).map_or(String::from(" - |"), |ratio| format!(" {ratio:.2} |"))
}
