//! Four sheets: for each the report, the verdict, and the run of a list of jobs.
use zucchinicove::{report, run, verdict, Job, REPORT_ROOM, SLOT_IDLE, SLOT_NOT_GIVEN};

/// The first record, of a timetable's length and number; 0 and 0 is the whole processor.
fn opening(length: u8, word: u64) -> Vec<u8> {
    let mut sheet = b"SU".to_vec();
    sheet.push(length);
    sheet.extend(word.to_be_bytes());
    sheet.extend([0, 0]);
    sheet
}

/// A sheet with lines by period, deadline and cost.
fn sheet(length: u8, word: u64, lines: &[[u16; 3]]) -> Vec<u8> {
    let mut sheet = opening(length, word);
    for line in lines {
        sheet.extend(b"LN");
        for figure in line {
            sheet.extend(figure.to_be_bytes());
        }
    }
    sheet.extend(b"EN");
    sheet.extend((1 + lines.len() as u16).to_be_bytes());
    sheet
}

fn job(line: u8, release: u16, cost: u16) -> Job {
    Job { line, release, cost }
}

fn print_report(sheet: &[u8]) {
    let mut text = [0; REPORT_ROOM];
    match report(sheet, &mut text) {
        Ok(length) => print!("{}", String::from_utf8_lossy(&text[..length])),
        Err(refusal) => println!("{refusal}"),
    }
}

fn print_verdict(sheet: &[u8]) {
    match verdict(sheet) {
        Ok(verdict) => println!("verdict: {verdict}"),
        Err(refusal) => println!("verdict: {refusal}"),
    }
}

/// What an entry of a slot list tells: the place of the job that runs, idle, or a stroke where the slot is not given.
fn told(entry: u16) -> String {
    match entry {
        SLOT_IDLE => "idle".to_string(),
        SLOT_NOT_GIVEN => "-".to_string(),
        _ => (entry - 1).to_string(),
    }
}

fn print_run(sheet: &[u8], phase: u32, jobs: &[Job], slots: &mut [u16]) {
    match run(sheet, phase, jobs, slots) {
        Ok(outcome) => {
            println!("run: {outcome}");
            let entries: Vec<String> = slots.iter().map(|&entry| told(entry)).collect();
            println!("slots {}", entries.join(" "));
        }
        Err(refusal) => println!("run: {refusal}"),
    }
}

fn print_all(sheet: &[u8], phase: u32, jobs: &[Job], slots: &mut [u16]) {
    print_report(sheet);
    print_verdict(sheet);
    print_run(sheet, phase, jobs, slots);
}

fn main() {
    println!("three lines");
    let fitting = sheet(0, 0, &[[7, 5, 3], [11, 7, 2], [13, 10, 3]]);
    print_all(&fitting, 0, &[job(0, 0, 3), job(1, 0, 2), job(2, 0, 3), job(0, 7, 3)], &mut [0; 14]);

    println!("\nthe same lines with longer jobs");
    let overloaded = sheet(0, 0, &[[7, 5, 3], [11, 7, 3], [13, 10, 4]]);
    print_all(&overloaded, 0, &[job(0, 0, 3), job(1, 0, 3), job(2, 0, 4), job(0, 7, 3)], &mut [0; 14]);

    println!("\na line on a timetable, in phase 2");
    let timetable = sheet(4, 3, &[[8, 6, 2]]);
    print_all(&timetable, 2, &[job(0, 0, 2)], &mut [0; 6]);

    println!("\na line whose deadline is past its period");
    let unlawful = sheet(0, 0, &[[8, 9, 2]]);
    print_all(&unlawful, 0, &[job(0, 0, 2)], &mut [0; 12]);
}
