//! The constants of the crate: they are the header's, and the library has its bounds there.
use zucchinicove::{run, Job, Layer, Outcome, Refusal};
use zucchinicove::{LAST_DEADLINE, LONGEST_SHEET, MOST_JOBS, REPORT_ROOM, SLOT_IDLE, SLOT_NOT_GIVEN};

const HEADER: &str = include_str!("../../../include/zucchinicove.h");

/// The number that the header gives a name.
fn defined(name: &str) -> usize {
    let before = format!("#define ZUCCHINICOVE_{name} ");
    let number = HEADER.lines().find_map(|line| line.strip_prefix(&before)).expect(name);
    number.parse().expect(name)
}

#[test]
fn constants_are_those_of_the_header() {
    assert_eq!(defined("REPORT_ROOM"), REPORT_ROOM);
    assert_eq!(defined("LONGEST_SHEET"), LONGEST_SHEET);
    assert_eq!(defined("MOST_JOBS"), MOST_JOBS);
    assert_eq!(defined("LAST_DEADLINE"), LAST_DEADLINE);
    assert_eq!(defined("SLOT_IDLE"), usize::from(SLOT_IDLE));
    assert_eq!(defined("SLOT_NOT_GIVEN"), usize::from(SLOT_NOT_GIVEN));
}

/// One line of period 7, deadline 5 and cost 3 on the whole processor.
const SHEET: &[u8] = b"SU\0\0\0\0\0\0\0\0\0\0\0LN\0\x07\0\x05\0\x03EN\0\x02";

fn refused(number: u8, place: usize) -> Result<Outcome, Refusal> {
    Err(Refusal { number, layer: Layer::Run, place: place as u32, record: 0, byte: 0 })
}

/// A job that is due at an instant.
fn due(deadline: usize) -> Job {
    Job { line: 0, release: (deadline - 5) as u16, cost: 3 }
}

#[test]
fn the_last_deadline() {
    let mut slots = vec![SLOT_NOT_GIVEN; LAST_DEADLINE];
    assert_eq!(run(SHEET, 0, &[due(LAST_DEADLINE)], &mut slots[1..]), refused(13, LAST_DEADLINE));
    assert_eq!(run(SHEET, 0, &[due(LAST_DEADLINE + 1)], &mut slots), refused(16, 0));
    assert_eq!(run(SHEET, 0, &[due(LAST_DEADLINE)], &mut slots), Ok(Outcome::Met));
    assert!(slots[..LAST_DEADLINE - 5].iter().all(|&entry| entry == SLOT_IDLE));
    assert_eq!(slots[LAST_DEADLINE - 5..], [1, 1, 1, SLOT_IDLE, SLOT_IDLE]);
}

#[test]
fn the_most_jobs() {
    let jobs: Vec<Job> = (0..=MOST_JOBS).map(|k| due(7 * k + 5)).collect();
    let mut slots = vec![SLOT_IDLE; LAST_DEADLINE];
    assert_eq!(run(SHEET, 0, &jobs, &mut slots), refused(16, 0));
    assert_eq!(run(SHEET, 0, &jobs[..MOST_JOBS], &mut slots), Ok(Outcome::Met));
    assert_eq!(slots[7 * (MOST_JOBS - 1)], MOST_JOBS as u16);
}

/// All is met, and the entries from the largest deadline on are those of slots not given.
#[test]
fn behind_the_largest_deadline() {
    let mut slots = [SLOT_IDLE; 7];
    assert_eq!(run(SHEET, 0, &[due(5)], &mut slots), Ok(Outcome::Met));
    assert_eq!(slots, [1, 1, 1, SLOT_IDLE, SLOT_IDLE, SLOT_NOT_GIVEN, SLOT_NOT_GIVEN]);
    assert_eq!(run(SHEET, 0, &[], &mut slots), Ok(Outcome::Met));
    assert_eq!(slots, [SLOT_NOT_GIVEN; 7]);
}
