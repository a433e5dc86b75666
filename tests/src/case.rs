//! One case: a family, a seed, and the calls that it makes.

use crate::call::Call;
use crate::calls::Calls;
use crate::coding::{in_words, number_of, refusal};
use crate::drawing;
use crate::exactness::Reached;
use crate::expecting::{expect, figure};
use crate::failure::{Failure, Outcome};
use crate::lent::{Lent, WrongByte};
use crate::making::{self, make, Made};
use crate::printing::{hex, hex_start};
use crate::random::Random;
use crate::states;
use crate::tally::Tally;
use reference::DoubledSize;

pub struct Case<'a> {
    pub family: &'static str,
    pub seed: u64,
    pub random: Random,
    calls: &'a Calls,
    tally: &'a mut Tally,
    print: bool,
    made: usize,
    /// The image that was printed last.
    printed: Vec<u8>,
}

impl<'a> Case<'a> {
    /// A case. With `print` it shows each call that it makes.
    pub fn new(
        family: &'static str,
        seed: u64,
        calls: &'a Calls,
        tally: &'a mut Tally,
        print: bool,
    ) -> Case<'a> {
        Case {
            family,
            seed,
            random: Random::of_case(family, seed),
            calls,
            tally,
            print,
            made: 0,
            printed: Vec::new(),
        }
    }

    /// Makes a call with the library and the reference, and compares the
    /// answers and every lent byte. The call then holds the bytes that both
    /// left.
    pub fn compare(&mut self, image: &[u8], call: &mut Call) -> Result<u64, Box<Failure>> {
        let expected = expect(image, call);
        let made = self.make(image, call);
        let byte = made.wrong_byte(image, &call.rows, &expected.state, &expected.filled);
        if made.answer != expected.answer || byte.is_some() {
            return Err(self.failure(image, call, made.answer, Some(expected.answer), byte));
        }
        call.state = expected.state;
        call.filled = expected.filled;
        self.has_its_count(image, call, made.answer)?;
        self.tally.compared += 1;
        self.tally.note(image, call, made.answer);
        Ok(made.answer)
    }

    /// Asks the library for all figures of the doubled netlist, on one lent
    /// image, and compares each answer with the reference's. Gives these
    /// figures, or none where they are refused.
    pub fn compare_figures(&mut self, image: &[u8]) -> Result<Option<DoubledSize>, Box<Failure>> {
        let size = reference::doubled_size(image);
        let mut lent = Lent::new("image", image, &mut self.random);
        for call in drawing::figures(&mut self.random) {
            self.start(image, &call);
            let answer = making::figure(self.calls, &mut lent, &call);
            self.end(&call, answer);
            let expected = size.map_or_else(refusal, |size| figure(size, &call));
            let byte = lent.wrong_byte(image);
            if answer != expected || byte.is_some() {
                return Err(self.failure(image, &call, answer, Some(expected), byte));
            }
            self.tally.compared += 1;
            self.tally.note(image, &call, answer);
        }
        Ok(size.ok())
    }

    /// Makes a call with the library alone. Guards, image and rows must be
    /// untouched, and after a refusal every other lent byte too. The call then
    /// holds the bytes that the library left.
    pub fn ask(&mut self, image: &[u8], call: &mut Call) -> Result<u64, Box<Failure>> {
        let made = self.make(image, call);
        let refused = number_of(made.answer) != 0;
        let byte = if refused {
            made.wrong_byte(image, &call.rows, &call.state, &call.filled)
        } else {
            made.wrong_byte(image, &call.rows, made.state(), made.filled())
        };
        if byte.is_some() {
            return Err(self.failure(image, call, made.answer, None, byte));
        }
        if refused && !call.name.may_refuse(number_of(made.answer)) {
            let property = "a refusal is one that the call may give";
            return Err(self.broken(image, call, made.answer, property));
        }
        call.state.copy_from_slice(made.state());
        call.filled.copy_from_slice(made.filled());
        self.has_its_count(image, call, made.answer)?;
        self.tally.alone += 1;
        self.tally.note(image, call, made.answer);
        Ok(made.answer)
    }

    /// Asks that the state that an accepted call left holds the number of its marked
    /// registers, which are counted here.
    fn has_its_count(&self, image: &[u8], call: &Call, answer: u64) -> Outcome {
        let is_accepted = call.name.has_count() && number_of(answer) == 0;
        if is_accepted && !states::is_counted(&call.state) {
            let property = "the state that is left holds the number of its marked registers";
            return Err(self.broken(image, call, answer, property));
        }
        Ok(())
    }

    /// Counts a net whose mark is as it has to be.
    pub fn note_net(&mut self, net: &Reached) {
        self.tally.exactness.note(net);
    }

    /// The failure of a property, after a call of the library.
    pub fn broken(
        &self,
        image: &[u8],
        call: &Call,
        answer: u64,
        property: impl Into<String>,
    ) -> Box<Failure> {
        let mut failure = self.failure(image, call, answer, None, None);
        failure.property = Some(property.into());
        failure
    }

    fn make(&mut self, image: &[u8], call: &Call) -> Made {
        self.start(image, call);
        let made = make(self.calls, image, call, &mut self.random);
        self.end(call, made.answer);
        made
    }

    /// Counts a call that is to be made.
    fn start(&mut self, image: &[u8], call: &Call) {
        self.made += 1;
        if self.print {
            self.print_call(image, call);
        }
    }

    /// Prints the answer of a call that was made.
    fn end(&self, call: &Call, answer: u64) {
        if self.print {
            println!("  answers {}", in_words(call.name, answer));
        }
    }

    /// Prints a call, with its image unless that was printed just before.
    fn print_call(&mut self, image: &[u8], call: &Call) {
        println!("call {}: {}", self.made, call.in_words(image));
        if self.made == 1 || self.printed != image {
            println!("  image {}", hex(image));
            self.printed = image.to_vec();
        }
        if call.name.has_state() {
            println!("  state {}", hex_start(&call.state));
        }
        if call.name.has_rows() {
            println!("  {} {}", call.name.rows(), hex_start(&call.rows));
        }
    }

    fn failure(
        &self,
        image: &[u8],
        call: &Call,
        answer: u64,
        expected: Option<u64>,
        byte: Option<WrongByte>,
    ) -> Box<Failure> {
        Box::new(Failure {
            family: self.family,
            seed: self.seed,
            place: self.made,
            name: call.name,
            call: call.in_words(image),
            answer,
            expected,
            byte,
            property: None,
        })
    }
}
