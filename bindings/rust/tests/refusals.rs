//! Refusals of every layer, with number, place, record and byte. What is expected is reasoned from docs/MODEL.md,
//! docs/SHEET.md and docs/REFUSALS.md.
use zucchinicove::{report, run, verdict, Job, Layer, Refusal, LONGEST_SHEET, REPORT_ROOM};

const WHOLE: [u8; 13] = *b"SU\0\0\0\0\0\0\0\0\0\0\0";

/// The first record, of a timetable's length and number, and a share.
fn supply(length: u8, word: u64, share: [u8; 2]) -> Vec<u8> {
    [b"SU", &[length][..], &word.to_be_bytes(), &share].concat()
}

/// A mark and figures of two bytes each.
fn record(mark: &[u8; 2], figures: &[u16]) -> Vec<u8> {
    let mut bytes = mark.to_vec();
    for figure in figures {
        bytes.extend(figure.to_be_bytes());
    }
    bytes
}

fn line(period: u16, deadline: u16, cost: u16) -> Vec<u8> {
    record(b"LN", &[period, deadline, cost])
}

/// A certificate by a divisor, and cites of a deadline and a weight.
fn cut(deadline: u16, divisor: u16, cites: &[[u16; 2]]) -> Vec<u8> {
    let mut bytes = record(b"CU", &[deadline, divisor]);
    bytes.push(cites.len() as u8);
    for figure in cites.concat() {
        bytes.extend(figure.to_be_bytes());
    }
    bytes
}

fn end(records: u16) -> Vec<u8> {
    record(b"EN", &[records])
}

/// The whole processor, and lines that watch 6, 12, 14, 22, 25, 30 and 38, where they rest. The first counts 1, 1, 2, 3, 3, 4
/// and 5 at them, and the second 0, 1, 1, 1, 2, 2 and 3.
fn pair() -> Vec<u8> {
    [WHOLE.to_vec(), line(8, 6, 2), line(13, 12, 9)].concat()
}

/// A certificate that 25 may leave: 2 x 3 is within 5 + 1, 2 x 2 is within 3 + 1, and 38 + 12 is within 2 x 25.
fn cut_25() -> Vec<u8> {
    cut(25, 2, &[[38, 1], [12, 1]])
}

/// Why a call is refused.
fn refusal(number: u8, layer: Layer, place: u32, record: u32, byte: u32) -> Refusal {
    Refusal { number, layer, place, record, byte }
}

/// The verdict and a run are refused for a reason, and the run leaves its slots.
#[track_caller]
fn refuses(sheet: &[u8], why: Refusal) {
    let mut slots = [7; 12];
    assert_eq!(verdict(sheet), Err(why));
    assert_eq!(run(sheet, 0, &[], &mut slots), Err(why));
    assert_eq!(slots, [7; 12]);
}

/// A sheet of these records is refused for a reason.
#[track_caller]
fn refuses_records(records: &[Vec<u8>], why: Refusal) {
    refuses(&records.concat(), why);
}

/// A run on the pair of lines is refused for its jobs or its slot list, which it leaves.
#[track_caller]
fn refuses_jobs(jobs: &[Job], room: usize, number: u8, place: u32) {
    let sheet = [pair(), end(3)].concat();
    let mut slots = vec![7; room];
    let why = refusal(number, Layer::Run, place, 0, 0);
    assert_eq!(run(&sheet, 0, jobs, &mut slots), Err(why));
    assert_eq!(slots, vec![7; room]);
}

fn job(line: u8, release: u16, cost: u16) -> Job {
    Job { line, release, cost }
}

/// The report on a sheet is a text, and is refused where the list is too short by one.
#[track_caller]
fn reports_as(sheet: &[u8], text: &str) {
    let mut out = [7; REPORT_ROOM];
    assert_eq!(report(sheet, &mut out), Ok(text.len()));
    assert_eq!(out[..text.len()], *text.as_bytes());
    assert_eq!(out[text.len()..], [7; REPORT_ROOM][text.len()..]);
    let mut short = vec![7; text.len() - 1];
    let why = refusal(13, Layer::Sheet, text.len() as u32, 0, 0);
    assert_eq!(report(sheet, &mut short), Err(why));
    assert_eq!(short, vec![7; text.len() - 1]);
}

/// No refusal of a supply names a place.
#[test]
fn supplies() {
    let timetable = refusal(17, Layer::Supply, 0, 1, 0);
    refuses_records(&[supply(0, 1, [0, 0]), end(1)], timetable);
    refuses_records(&[supply(65, 1, [0, 0]), end(1)], timetable);
    refuses_records(&[supply(4, 0, [0, 0]), end(1)], timetable);
    refuses_records(&[supply(4, 16, [3, 2]), end(1)], timetable);
    let share = refusal(18, Layer::Supply, 0, 1, 0);
    refuses_records(&[supply(0, 0, [0, 1]), end(1)], share);
    refuses_records(&[supply(4, 3, [3, 2]), end(1)], share);
    refuses_records(&[supply(4, 3, [1, 65]), end(1)], share);
}

/// No refusal of a line names a place.
#[test]
fn lines() {
    let of_line = |number| refusal(number, Layer::Roster, 0, 3, 21);
    let first = [WHOLE.to_vec(), line(8, 5, 2)].concat();
    refuses_records(&[first.clone(), line(0, 1, 1), end(3)], of_line(2));
    refuses_records(&[first.clone(), line(1001, 9, 4), end(3)], of_line(2));
    refuses_records(&[first.clone(), line(8, 0, 2), end(3)], of_line(3));
    refuses_records(&[first.clone(), line(8, 9, 2), end(3)], of_line(3));
    refuses_records(&[first.clone(), line(15, 9, 0), end(3)], of_line(4));
    refuses_records(&[first.clone(), line(15, 9, 1001), end(3)], of_line(4));
    refuses_records(&[WHOLE.to_vec(), line(1000, 1, 1), line(999, 1, 1), end(3)], of_line(5));
    refuses_records(&[WHOLE.to_vec(), line(1000, 1000, 1), line(1, 1, 1), end(3)], of_line(6));
    let eight = line(8, 5, 1).repeat(8);
    let ninth = refusal(1, Layer::Roster, 0, 10, 77);
    refuses_records(&[WHOLE.to_vec(), eight, line(8, 5, 1), end(10)], ninth);
}

/// The places are cites from 1 and a line from 0.
#[test]
fn certificates() {
    let of_first = |number, place| refusal(number, Layer::Roster, place, 4, 29);
    refuses_records(&[pair(), cut(13, 1, &[[38, 1]])], of_first(8, 0));
    refuses_records(&[pair(), cut(25, 2, &[[25, 1], [12, 1]])], of_first(8, 1));
    refuses_records(&[pair(), cut(25, 2, &[[38, 1], [13, 1]])], of_first(8, 2));
    refuses_records(&[pair(), cut(25, 0, &[[38, 1]])], of_first(9, 0));
    refuses_records(&[pair(), cut(25, 2, &[]), end(4)], of_first(9, 0));
    refuses_records(&[pair(), cut(25, 2, &[[38, 1]; 9])], of_first(9, 0));
    refuses_records(&[pair(), cut(25, 2, &[[38, 1], [12, 0]])], of_first(9, 2));
    refuses_records(&[pair(), cut(25, 2, &[[38, 1], [12, 1], [6, 1001]])], of_first(9, 3));
    refuses_records(&[pair(), cut(12, 1, &[[6, 1]])], of_first(10, 1));
    refuses_records(&[pair(), cut(25, 1, &[[12, 1], [14, 1]])], of_first(11, 0));
    let of_second = |place| refusal(8, Layer::Roster, place, 5, 44);
    refuses_records(&[pair(), cut_25(), cut_25()], of_second(0));
    refuses_records(&[pair(), cut_25(), cut(14, 1, &[[12, 1], [25, 1]])], of_second(2));
}

/// No refusal by the sheet's own checks names a place. One that is too long is refused at no record.
#[test]
fn records() {
    let of_record = |number, record, byte| refusal(number, Layer::Sheet, 0, record, byte);
    refuses(&[], of_record(19, 1, 0));
    refuses_records(&[pair()], of_record(19, 4, 29));
    refuses_records(&[pair(), cut_25(), vec![b'E']], of_record(19, 5, 44));
    refuses_records(&[line(8, 5, 2), end(1)], of_record(20, 1, 0));
    refuses_records(&[WHOLE.to_vec(), WHOLE.to_vec(), end(2)], of_record(20, 2, 13));
    refuses_records(&[pair(), b"XN".to_vec()], of_record(20, 4, 29));
    refuses_records(&[pair(), cut_25(), end(3)], of_record(21, 5, 44));
    refuses_records(&[pair(), cut_25(), end(4), vec![0]], of_record(22, 6, 48));
    refuses(&[0; LONGEST_SHEET], of_record(20, 1, 0));
    refuses(&[0; LONGEST_SHEET + 1], of_record(16, 0, 0));
}

/// The places are jobs from 0 and the length needed. It is not the sheet that is refused.
#[test]
fn jobs() {
    refuses_jobs(&[job(0, 0, 2), job(2, 0, 1)], 12, 14, 1);
    refuses_jobs(&[job(0, 0, 2), job(1, 0, 9), job(0, 8, 0)], 14, 14, 2);
    refuses_jobs(&[job(0, 0, 3)], 6, 14, 0);
    refuses_jobs(&[job(0, 0, 2), job(0, 7, 2)], 13, 15, 1);
    refuses_jobs(&[job(0, 0, 2), job(0, 9, 2), job(1, 8, 9)], 20, 15, 2);
    refuses_jobs(&[job(0, 0, 2), job(0, 31_995, 2)], 32_000, 16, 1);
    refuses_jobs(&[job(0, 0, 2)], 5, 13, 6);
    refuses_jobs(&[job(0, 0, 2), job(1, 1, 9)], 12, 13, 13);
}

/// A report is refused for its list alone, with the length needed as its place.
#[test]
fn reports() {
    let accepted = "lines 2\nrest 38\nwatched 6\nfits\n";
    reports_as(&[pair(), cut_25(), end(4)].concat(), accepted);
    reports_as(&[supply(4, 3, [3, 2]), end(1)].concat(), "refused 18 supply record 1 byte 0\n");
    reports_as(&[pair(), cut(12, 1, &[[6, 1]])].concat(), "refused 10 roster record 4 byte 29\n");
    reports_as(&[0; LONGEST_SHEET + 1], "refused 16 sheet record 0 byte 0\n");
}

/// What a refusal prints.
#[test]
fn words() {
    for (layer, text) in [
        (Layer::Supply, "refused 9 supply place 2 record 4 byte 29"),
        (Layer::Roster, "refused 9 roster place 2 record 4 byte 29"),
        (Layer::Run, "refused 9 run place 2 record 4 byte 29"),
        (Layer::Sheet, "refused 9 sheet place 2 record 4 byte 29"),
    ] {
        assert_eq!(refusal(9, layer, 2, 4, 29).to_string(), text);
    }
}
