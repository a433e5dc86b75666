//! Wrong readings of request L7 of document 02, each as a test that the wrong
//! reading fails.

use crate::images::*;
use crate::lent::*;
use crate::samples::sample;
use reference::{listing, pages, run, step};

// With the registers of the cycle counted, before the clock, the counts after the
// two steps would be 0 and 1. They are those of the registers after the clock.
#[test]
fn the_count_is_taken_after_the_clock() {
    let source = sample(&[(INPUT, 0, 0, 0), (REG, 0, 0, 0)]);
    let marked = source.step(&[0, 0, 0], &[3]).2;
    assert_eq!(marked, [3, 1, 0]);
    assert_eq!(source.step(&marked, &[1]).2, [1, 0, 0]);
}

// Summed over the clocks of a run, the counts would be 4 and 3, and the largest of
// them would be 1 in both. The count is that after the last clock.
#[test]
fn a_run_counts_its_last_registers_alone() {
    let source = sample(&[(INPUT, 0, 0, 0), (REG, 0, 0, 0)]);
    assert_eq!(source.run(&[0, 0, 0], 4, &[2; 4]).2, [2, 1, 0]);
    assert_eq!(source.run(&[0, 0, 0], 4, &[2, 2, 2, 0]).2, [0, 0, 0]);
}

// Values are not counted: of 1 and 2 the second alone is marked. Nor are other
// marked nets, here an INPUT, a NOT and an OUT.
#[test]
fn the_count_is_of_marks_and_of_registers() {
    let source = sample(&[
        (INPUT, 0, 0, 0),
        (NOT, 0, 0, 0),
        (OUT, 1, 1, 0),
        (REG, 3, 1, 0),
        (REG, 4, 2, 0),
    ]);
    let (_, nets, state) = source.step(&[1, 2, 1, 0], &[3]);
    assert_eq!(nets, [3, 2, 2, 1, 2]);
    assert_eq!(state, [1, 2, 1, 0]);
}

// With 11 looking at all bytes of the state, four marked registers would make every
// step turn back. A count of 4 is a good count.
#[test]
fn four_marked_registers_are_accepted() {
    let nets: Vec<Entry> = (0..4).map(|net| (REG, net, 2, 0)).collect();
    let source = sample(&nets);
    assert_eq!(source.power_up(), [2, 2, 2, 2, 4, 0]);
    assert_eq!(source.step(&source.power_up(), &[]).2, [2, 2, 2, 2, 4, 0]);
}

// With the high byte first, or in one byte, 256 marked registers would have the
// count bytes 1, 0 or 255, 0 or 0, 0.
#[test]
fn the_count_has_two_bytes() {
    let nets: Vec<Entry> = (0..256).map(|net| (REG, net, 2, 0)).collect();
    let source = sample(&nets);
    assert_eq!(source.power_up()[256..], [0, 1]);
    for count in [[1, 0], [255, 0], [0, 0]] {
        let mut state = vec![2; 256];
        state.extend(count);
        step_refuses(&source.image, (&state, &[], 256), 20, 0);
    }
}

// A run of no cycles changes nothing, so it does not set a wrong count right. It
// draws 20.
#[test]
fn a_run_of_no_cycles_does_not_mend_the_count() {
    run_refuses(&COUNTER, 0, (&[3, 0, 0], &[], 0), 20, 0);
    let mut state = [3, 1, 0];
    assert!(run(&COUNTER, 0, &mut state, &[], &mut []).is_ok());
    assert_eq!(state, [3, 1, 0]);
}

// A step whose clock would make the count right is refused all the same. The count
// is compared with the registers that the step is lent: row 1 unmarks the counter.
#[test]
fn a_wrong_count_is_not_passed_over() {
    step_refuses(&COUNTER, (&[2, 0, 0], &[1], 6), 20, 0);
    let mut state = [2, 1, 0];
    assert!(step(&COUNTER, &mut state, &[1], &mut [77; 6]).is_ok());
    assert_eq!(state, [0, 0, 0]);
}

// The count is no register: a listing and pages look at OUTs alone. Ten registers
// hold start 2, and the OUT is that of the last of them.
#[test]
fn the_count_is_not_printed() {
    let mut nets = vec![(INPUT, 0, 0, 0)];
    nets.extend((1..=10).map(|net| (REG, net, 2, 0)));
    nets.push((OUT, 10, 0, 0));
    let image = counted(&nets);
    let mut lines = Vec::new();
    listing(&image, &[0, 1][..], &mut lines).unwrap();
    assert_eq!(
        String::from_utf8(lines).unwrap(),
        "0 2 clear\n1 2 clear\nend 2\n"
    );
    let mut text = Vec::new();
    pages(&image, &[0, 1][..], &mut text).unwrap();
    let text = String::from_utf8(text).unwrap();
    assert_eq!(text.lines().nth(1).unwrap().trim_end(), "   11 ll");
    assert_eq!(text.lines().count(), 2);
}
