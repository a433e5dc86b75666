//! The calls of the language, and what each of them takes behind its word.

use super::reading::read_cases;

#[derive(Clone, Copy, Debug, PartialEq)]
pub enum Call {
    Gate,
    Check,
    PowerUp,
    Step,
    Run,
    Double,
    Figures,
    Table,
    Awake,
    Unknown,
    Write,
}

pub fn read_call(word: &str) -> Call {
    match word {
        "Gate" => Call::Gate,
        "Check" => Call::Check,
        "Power-up" => Call::PowerUp,
        "Step" => Call::Step,
        "Run" => Call::Run,
        "Double" => Call::Double,
        "Figures" => Call::Figures,
        "Table" => Call::Table,
        "Awake" => Call::Awake,
        "Unknown" => Call::Unknown,
        "Write" => Call::Write,
        _ => panic!("no call: {word}"),
    }
}

impl Call {
    /// A gate's kind, the cycles of a run or of pages, and the net from which a
    /// doubled image is printed are numbers. The other calls take none.
    pub fn takes_number(self) -> bool {
        match self {
            Call::Gate | Call::Run | Call::Double => true,
            Call::Table | Call::Unknown | Call::Write => true,
            Call::Check | Call::PowerUp | Call::Step | Call::Figures | Call::Awake => false,
        }
    }

    /// The lists that a call takes.
    pub fn takes_lists(self) -> &'static [&'static str] {
        match self {
            Call::Gate | Call::Table => &["rows"],
            Call::Check | Call::Figures => &["image", "doubled"],
            Call::PowerUp | Call::Awake => &["image", "doubled", "state"],
            Call::Step | Call::Run | Call::Unknown => {
                &["image", "doubled", "state", "rows", "buffer"]
            }
            Call::Double => &["image", "doubled", "buffer"],
            Call::Write => &["image", "doubled", "rows", "buffer"],
        }
    }
}

/// Whether a call with what stands behind it is in the language.
fn is_read(call: &str) -> bool {
    let line = format!("\"name\" {call}");
    std::panic::catch_unwind(|| read_cases(&line)).is_ok()
}

#[test]
fn a_call_may_have_all_that_it_takes() {
    for call in [
        "Gate 4 rows 3*0",
        "Check image 1 doubled 9",
        "Power-up image 1 doubled 9 state 0",
        "Step image 1 doubled 9 state 0 rows 0 buffer 9",
        "Run 1 image 1 doubled 9 state 0 rows 0 buffer 9",
        "Double 3 image 1 doubled 9 buffer 9",
        "Figures image 1 doubled 9",
        "Figures image",
        "Table 7 rows 3*4",
        "Awake image 1 doubled 9 state 0",
        "Unknown 1 image 1 doubled 9 state 0 rows 0 buffer 9",
        "Unknown image state rows buffer",
        "Write 1 image 1 doubled 9 rows 0 buffer 9",
        "Write image rows buffer",
    ] {
        assert!(is_read(call), "{call}");
    }
}

// A list that a call does not take is an error also when it is empty.
#[test]
fn a_call_has_nothing_that_it_does_not_take() {
    for call in [
        "Gate 4 image 1",
        "Check 0 image 1",
        "Check image 1 state 0",
        "Power-up 1 image 1",
        "Power-up image 1 rows 0",
        "Step 1 image 1",
        "Double image 1 rows 0",
        "Figures 0 image 1",
        "Figures 4 image 1",
        "Figures image 1 state 0",
        "Figures image 1 rows 0",
        "Figures image 1 buffer 9",
        "Figures image 1 state",
        "Figures image 1 rows",
        "Figures image 1 buffer",
        "Figures image 1 image 1",
        "Figures image 1 kinds 1",
        "figures image 1",
        "Figure image 1",
        "F image 1",
        "Table 7 image 1",
        "Table 7 rows 3*4 state 0",
        "Awake 1 image 1",
        "Awake image 1 rows 0",
        "Awake image 1 buffer 9",
        "Unknown 1 image 1 kinds 1",
        "Unknown 1 2 image 1",
        "T 7 rows 3*4",
        "A image 1",
        "U 1 image 1",
        "Write 1 image 1 state 0",
        "Write 1 image 1 state",
        "Write 1 image 1 record 0",
        "Write 1 2 image 1",
        "W 1 image 1",
    ] {
        assert!(!is_read(call), "{call}");
    }
}
