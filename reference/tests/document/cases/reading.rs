//! The language of crates/cases/stdin, as the head of that file explains it.
//!
//! The program `cases` knows a word by its first letter. Here every word has to
//! be written out, and anything that is not in the language stops the test.

use super::calls::{read_call, Call};
use std::collections::BTreeMap;

/// A call, its number and its lists. `goes_on` says that it prints on the line
/// of the case before it.
pub struct Case {
    pub goes_on: bool,
    pub name: String,
    pub call: Call,
    pub number: usize,
    pub image: Vec<u8>,
    pub doubled: Vec<u8>,
    pub state: Vec<u8>,
    pub rows: Vec<u8>,
    pub buffer: Vec<u8>,
}

/// The lists that have a name, each as it is written behind its name.
type Names<'a> = BTreeMap<&'a str, Vec<&'a str>>;

/// The cases of a text, in order.
pub fn read_cases(text: &str) -> Vec<Case> {
    let mut names = Names::new();
    let mut cases = Vec::new();
    for line in text.lines() {
        match line.chars().next() {
            None | Some('#') => {}
            Some('"') | Some('+') => cases.push(read_case(line, &names)),
            Some('a'..='z') => add_name(line, &mut names),
            _ => panic!("no line of the language: {line}"),
        }
    }
    cases
}

/// The program knows a name by its first letter, so each name needs its own.
fn add_name<'a>(line: &'a str, names: &mut Names<'a>) {
    let mut words = line.split_whitespace();
    let name = words.next().unwrap();
    for other in names.keys() {
        assert_ne!(other[..1], name[..1], "{other} and {name}");
    }
    let list = words.collect::<Vec<_>>();
    // A line that is no image of numbers stops here: it may be a case that lost
    // its first quote.
    read_list(&list, true);
    names.insert(name, list);
}

fn read_case(line: &str, names: &Names) -> Case {
    let parts: Vec<&str> = line.split('"').collect();
    let (before, name, behind) = match parts[..] {
        [before, name, behind] => (before, name, behind),
        _ => panic!("not one name in quotes: {line}"),
    };
    assert!(before.is_empty() || before == "+", "{line}");
    let mut words: Vec<&str> = behind.split_whitespace().collect();
    let call = read_call(words.remove(0));
    let number = take_number(&mut words);
    assert!(number.is_none() || call.takes_number(), "{line}");
    let mut lists = split_lists(&words, line);
    for word in lists.keys() {
        let taken = call.takes_lists().contains(word);
        assert!(taken, "the call takes no list {word}: {line}");
    }
    let mut bytes = |word: &str| {
        let written = lists.remove(word).unwrap_or_default();
        read_list(named(&written, names), word == "image")
    };
    Case {
        goes_on: before == "+",
        name: name.to_string(),
        call,
        number: number.unwrap_or(0),
        image: bytes("image"),
        doubled: bytes("doubled"),
        state: bytes("state"),
        rows: bytes("rows"),
        buffer: bytes("buffer"),
    }
}

/// Takes the number at the head of the words, where there is one.
fn take_number(words: &mut Vec<&str>) -> Option<usize> {
    let number = words.first().and_then(|word| word.parse().ok());
    if number.is_some() {
        words.remove(0);
    }
    number
}

/// What stands behind each word that names a list.
fn split_lists<'a>(words: &[&'a str], line: &str) -> BTreeMap<&'a str, Vec<&'a str>> {
    let mut lists = BTreeMap::new();
    let mut last = "";
    for word in words {
        if word.starts_with(|c: char| c.is_ascii_lowercase()) {
            last = word;
            let earlier = lists.insert(last, Vec::new());
            assert!(earlier.is_none(), "a list is there twice: {line}");
        } else {
            let list = lists.get_mut(last).unwrap_or_else(|| panic!("{line}"));
            list.push(*word);
        }
    }
    lists
}

/// A list as it is written: that of its name, where it is a name.
fn named<'a>(written: &'a [&'a str], names: &'a Names) -> &'a [&'a str] {
    match written {
        [word] if word.starts_with('@') => names
            .get(&word[1..])
            .unwrap_or_else(|| panic!("no name: {word}")),
        _ => written,
    }
}

/// The bytes of a list. Its numbers are bytes, but those of an image are u16,
/// low byte first; behind each bar it is the other way round.
fn read_list(written: &[&str], is_image: bool) -> Vec<u8> {
    let mut bytes = Vec::new();
    let mut is_wide = is_image;
    for word in written {
        if *word == "|" {
            is_wide = !is_wide;
            continue;
        }
        let (times, number) = word.split_once('*').unwrap_or(("1", word));
        for _ in 0..times.parse::<usize>().unwrap() {
            if is_wide {
                bytes.extend(number.parse::<u16>().unwrap().to_le_bytes());
            } else {
                bytes.push(number.parse().unwrap());
            }
        }
    }
    bytes
}

// The counter, as the file writes it, is the counter that is written out byte
// for byte in images.rs.
#[test]
fn an_image_with_a_name() {
    let text = "counter 6 1 1 1 | 1 2 3 3 4 8 | 3*0  4 0 0  1 0 0  0 0 0  2 3 0  1 1 0\n\
                \"x\" Check image @counter\n";
    let cases = read_cases(text);
    assert_eq!(cases[0].image, crate::images::COUNTER);
}

// 258 is 2 + 256 * 1. Behind the first bar a number is one byte, behind the
// second it is two again.
#[test]
fn bars_and_repetitions() {
    let list = |text: &str, is_image| {
        let words: Vec<&str> = text.split(' ').collect();
        read_list(&words, is_image)
    };
    assert_eq!(list("258 | 2*7 | 2*258", true), [2, 1, 7, 7, 2, 1, 2, 1]);
    assert_eq!(list("| 7 255", true), [7, 255]);
    assert_eq!(list("0*9 4", false), [4]);
}

#[test]
fn a_case_with_its_number_and_lists() {
    let cases = read_cases("# no case\n\n+\", run\" Run 4096 rows 1 2 state 3 image\n");
    let case = &cases[0];
    assert_eq!((case.goes_on, case.name.as_str()), (true, ", run"));
    assert_eq!((case.call, case.number), (Call::Run, 4096));
    assert_eq!((&case.rows[..], &case.state[..]), (&[1, 2][..], &[3][..]));
    assert!(case.image.is_empty() && case.buffer.is_empty());
}

#[test]
fn the_figures_take_an_image_alone_or_a_doubled_one() {
    let cases = read_cases("\"f\" Figures image | 7*0\n\"g\" Figures image | 3 doubled 2*9\n");
    assert_eq!((cases[0].call, cases[0].number), (Call::Figures, 0));
    assert_eq!(cases[0].image, [0; 7]);
    assert!(cases[0].doubled.is_empty());
    assert_eq!(
        (&cases[1].image[..], &cases[1].doubled[..]),
        (&[3][..], &[9, 9][..])
    );
}
