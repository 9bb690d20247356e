// A whole job with the library, in Rust: a plan in bytes, its runs, totals and effects; the table of a sheet; and a refusal.
//
//     rustc examples/use.rs -L target/staticlib -l static=lithgorn
//     ./use examples/sixteen_runs.sheet
//
// It prints examples/use.txt, as examples/use.c does, which tells where the readings are from. The declarations below are
// those of include/lithgorn.h that it needs; a slice is a pointer and a length.

const FIGURES: usize = 11;
const CHECKS: usize = 2;
const TEXT: usize = 69632;
const DENOMINATOR: usize = 0;
const TOTAL_DEGREES: usize = 9;
const TOTAL_NUMERATOR: usize = 10;
const MEAN: u8 = 0;
const LOST: u8 = 2;
const REFUSED_LOST_FACTOR: u8 = 8;

extern "C" {
    fn lithgorn_check(plan: *const u8, plan_length: usize) -> u8;
    fn lithgorn_run(plan: *const u8, plan_length: usize, run: usize, high: *mut u16, block: *mut u8) -> u8;
    fn lithgorn_alias(plan: *const u8, plan_length: usize, effect: u16, word: *mut u16, turned: *mut u8) -> u8;
    fn lithgorn_estimate(plan: *const u8, plan_length: usize, effect: u16, total: i64, kind: *mut u8, value: *mut f64) -> u8;
    fn lithgorn_totals(plan: *const u8, plan_length: usize, readings: *const i32, readings_length: usize,
                       totals: *mut i64, totals_length: usize) -> u8;
    fn lithgorn_sheet_table(sheet: *const u8, sheet_length: usize, totals: *mut i64, totals_length: usize,
                            rows: *mut u64, rows_length: usize, figures: *mut u64, checks: *mut i64) -> u8;
    fn lithgorn_text(sheet: *const u8, sheet_length: usize, text: *mut u8) -> usize;
}

// Three base factors at two levels, D = ABC, two blocks by AB.
const PLAN: [u8; 16] = [1, 0, 2, 2, 3, 2, 0, 3, 0, 7, 0, 3, 0, 2, 0, 3];
const READINGS: [i32; 8] = [42, 30, 50, 29, 40, 28, 46, 23];

// The same with A as block word, which is refused: A would be lost to blocks.
const REFUSED: [u8; 10] = [1, 0, 2, 2, 3, 3, 0, 2, 0, 1];

// What a call has made, or the number with which it is refused.
fn done<T>(answer: u8, made: T) -> Result<T, u8> {
    if answer == 0 { Ok(made) } else { Err(answer) }
}

fn check(plan: &[u8]) -> u8 {
    unsafe { lithgorn_check(plan.as_ptr(), plan.len()) }
}

// The letters that are high in a run, and its block.
fn run(plan: &[u8], number: usize) -> Result<(u16, u8), u8> {
    let (mut high, mut block) = (0, 0);
    let answer = unsafe { lithgorn_run(plan.as_ptr(), plan.len(), number, &mut high, &mut block) };
    done(answer, (high, block))
}

// The base word to which an effect reduces, and whether its sign turns.
fn alias(plan: &[u8], effect: u16) -> Result<(u16, bool), u8> {
    let (mut word, mut turned) = (0, 0);
    let answer = unsafe { lithgorn_alias(plan.as_ptr(), plan.len(), effect, &mut word, &mut turned) };
    done(answer, (word, turned == 1))
}

// The kind of an estimate, and its value, high minus low.
fn estimate(plan: &[u8], effect: u16, total: i64) -> Result<(u8, f64), u8> {
    let (mut kind, mut value) = (0, 0.0);
    let answer = unsafe { lithgorn_estimate(plan.as_ptr(), plan.len(), effect, total, &mut kind, &mut value) };
    done(answer, (kind, value))
}

// The totals of all effects, low minus high.
fn totals(plan: &[u8], readings: &[i32], count: usize) -> Result<Vec<i64>, u8> {
    let mut made = vec![0; count];
    let answer = unsafe {
        lithgorn_totals(plan.as_ptr(), plan.len(), readings.as_ptr(), readings.len(), made.as_mut_ptr(), made.len())
    };
    done(answer, made)
}

struct Table {
    rows: Vec<u64>,
    figures: [u64; FIGURES],
    checks: [i64; CHECKS],
}

// The table of a sheet of so many runs and rows.
fn sheet_table(sheet: &[u8], count: usize) -> Result<Table, u8> {
    let mut totals = vec![0; count];
    let mut table = Table { rows: vec![0; count], figures: [0; FIGURES], checks: [0; CHECKS] };
    let answer = unsafe {
        lithgorn_sheet_table(sheet.as_ptr(), sheet.len(), totals.as_mut_ptr(), count, table.rows.as_mut_ptr(), count,
                             table.figures.as_mut_ptr(), table.checks.as_mut_ptr())
    };
    done(answer, table)
}

// What factab prints of a sheet.
fn text(sheet: &[u8]) -> String {
    let mut room = vec![0; TEXT];
    let length = unsafe { lithgorn_text(sheet.as_ptr(), sheet.len(), room.as_mut_ptr()) };
    String::from_utf8_lossy(&room[..length]).into_owned()
}

// The letters of a word, or another name where it has none.
fn letters(word: u16, none: &str) -> String {
    if word == 0 {
        return none.to_string();
    }
    (0..16).filter(|letter| word >> letter & 1 == 1).map(|letter| (b'A' + letter) as char).collect()
}

fn print_runs() -> Result<(), u8> {
    for (number, reading) in READINGS.iter().enumerate() {
        let (high, block) = run(&PLAN, number)?;
        println!("run {}: {}, block {}, reading {}", number, letters(high, "(1)"), block, reading);
    }
    Ok(())
}

fn print_effects() -> Result<(), u8> {
    for (word, total) in totals(&PLAN, &READINGS, READINGS.len())?.into_iter().enumerate() {
        let (kind, value) = estimate(&PLAN, word as u16, total)?;
        let name = if kind == MEAN { "mean" } else { "effect" };
        let found = if kind == LOST { "lost to blocks".to_string() } else { format!("{} {}", name, value) };
        println!("{}: total {}, {}", letters(word as u16, "mean"), total, found);
    }
    let (word, turned) = alias(&PLAN, 8)?;
    println!("D: the effect of {}{}", letters(word, "mean"), if turned { ", negated" } else { "" });
    Ok(())
}

fn print_table(sheet: &[u8]) -> Result<(), u8> {
    let table = sheet_table(sheet, 16)?;
    let over = table.figures[DENOMINATOR];
    for (row, numerator) in table.rows.iter().enumerate() {
        println!("{}: {} / {} = {:.4}", letters(row as u16, "mean"), numerator, over, *numerator as f64 / over as f64);
    }
    let sum = table.figures[TOTAL_NUMERATOR];
    println!("total: {} degrees, {} / {} = {:.4}", table.figures[TOTAL_DEGREES], sum, over, sum as f64 / over as f64);
    println!("check: {} and {}", table.checks[0], table.checks[1]);
    Ok(())
}

fn print_all(sheet: &[u8]) -> Result<(), u8> {
    println!("plan of {} bytes: {}", PLAN.len(), check(&PLAN));
    print_runs()?;
    print_effects()?;
    print_table(sheet)?;
    let printed = text(sheet);
    println!("text: {} bytes, first {}", printed.len(), printed.lines().next().unwrap_or(""));
    let answer = check(&REFUSED);
    let cause = if answer == REFUSED_LOST_FACTOR { ", a factor would be lost" } else { "" };
    println!("block word A: refused {}{}", answer, cause);
    Ok(())
}

fn main() {
    let path = std::env::args().nth(1).unwrap_or("examples/sixteen_runs.sheet".to_string());
    let sheet = std::fs::read(&path).expect("the sheet cannot be read");
    if let Err(number) = print_all(&sheet) {
        eprintln!("refused {}", number);
        std::process::exit(1);
    }
}
