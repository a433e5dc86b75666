//! The calls `Awake`, `Unknown` and `Table` of the language: static power-up,
//! static run and the gates of a static run. What they print has the form of
//! `Power-up`, `Run` and `Gate`.

use super::page;
use super::reading::read_cases;

/// The counter, as crates/cases/stdin writes it.
const COUNTER_LINE: &str =
    "counter 6 1 1 1 | 1 2 3 3 4 8 | 3*0  4 0 0  1 0 0  0 0 0  2 3 0  1 1 0\n";

// Static power-up and static runs of the counter are printed as power-up and run
// are. Their values are those of static_cycles.rs. The doubled counter has two
// registers, both with start 0. 5 is no code, at index 1 of the rows.
#[test]
fn static_calls_are_printed_like_the_plain_ones() {
    let text = "\"awake\" Awake image @counter state 9\n\
                \"awake, doubled\" Awake image @counter doubled 120*9 state 2*9\n\
                \"awake, no state\" Awake image @counter\n\
                \"unknown\" Unknown 4 image @counter state 0 rows 4*4 buffer 4*9\n\
                +\", untrusted\" Unknown 4 image @counter state 0 rows 4*6 buffer 4*9\n\
                \"no code\" Unknown 2 image @counter state 6 rows 4 5 buffer 2*9\n\
                \"no cycle\" Unknown image @counter state 6\n";
    let expected = "awake: accepted, state 0\n\
         awake, doubled: accepted, state 0 0\n\
         awake, no state: refused 10 0, state\n\
         unknown: clear, cycle 4, state 4, outputs 0 4 4 4\
         , untrusted: flow 5, cycle 1, state 6, outputs 0 6 6 6\n\
         no code: refused 18 1, state 6, outputs 9 9\n\
         no cycle: clear, cycle 0, state 6, outputs\n";
    let text = COUNTER_LINE.to_string() + text;
    assert_eq!(page(&read_cases(&text)), expected);
}

// Without unknowns the two calls print what the plain ones print, but for the count
// behind the register, which is 0 here, and for start 2 at power-up: one register
// with start 2, which holds its byte.
#[test]
fn static_calls_print_what_the_plain_ones_do() {
    let print = |calls: [&str; 2], count: &str| {
        let text = format!(
            "{COUNTER_LINE}\
             \"p\" {} image @counter state 7{count}\n\
             \"r\" {} 4 image @counter state 0{count} rows 2 0 1 0 buffer 4*9\n",
            calls[0], calls[1]
        );
        page(&read_cases(&text))
    };
    let expected = |count: &str| {
        format!(
            "p: accepted, state 0{count}\n\
             r: flow 5, cycle 1, state 1{count}, outputs 0 3 2 0\n"
        )
    };
    assert_eq!(print(["Power-up", "Run"], " 0 0"), expected(" 0 0"));
    assert_eq!(print(["Awake", "Unknown"], ""), expected(""));
    let start_2 = "\"p\" Power-up image 1 0 1 0 | 2 | 0 2 0 state 3*9\n\
                   \"a\" Awake image 1 0 1 0 | 2 | 0 2 0 state 9\n";
    let expected = "p: accepted, state 2 1 0\na: accepted, state 6\n";
    assert_eq!(page(&read_cases(start_2)), expected);
}

// The codes are those of static_gates.rs, printed without a space among them.
#[test]
fn a_table_is_printed_like_a_gate() {
    let text = "\"not\" Table 3 rows 4 0 0  6 0 0  2 0 0\n\
                \"and\" Table 4 rows 4 0 0  4 1 0  2 4 0  6 0 0\n\
                \"or\" Table 5 rows 4 1 0  2 4 0\n\
                \"xor\" Table 6 rows 4 4 0  4 2 0\n\
                \"mux\" Table 7 rows 1 1 4  0 1 4  1 1 6  0 0 6\n\
                \"out\" Table 8 rows 4 0 0  6 0 0  3 0 0\n";
    let expected = "not: 463\nand: 0420\nor: 16\nxor: 46\nmux: 1410\nout: 463\n";
    assert_eq!(page(&read_cases(text)), expected);
}

// A gate takes bytes 0 to 3 and a table codes. Anything else stops the test.
#[test]
fn a_gate_takes_bytes_and_a_table_codes() {
    let stops = |text: &str| {
        let cases = read_cases(text);
        std::panic::catch_unwind(|| page(&cases)).is_err()
    };
    assert!(!stops("\"g\" Gate 3 rows 3 0 0\n"));
    assert!(stops("\"g\" Gate 3 rows 4 0 0\n"));
    assert!(!stops("\"t\" Table 3 rows 6 4 0\n"));
    assert!(stops("\"t\" Table 3 rows 5 0 0\n"));
    assert!(stops("\"t\" Table 3 rows 0 0 7\n"));
    assert!(stops("\"t\" Table 2 rows 0 0 0\n"));
    assert!(stops("\"t\" Table 3 rows 4 4\n"));
}
