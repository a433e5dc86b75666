//! Images built net by net, against those of lists of nets.

use tracker::kinds::{AND, CONST, INPUT, INVERTED, MUX, NOT, OR, OUT, REG, XOR};
use tracker::{encode, Builder, Net, Pin, Reason, Refusal};

// Net 3 takes net 9 at the clock, net 4 its own byte, and net 5 the inverted net 3.
#[test]
fn each_kind_has_its_operands() {
    let mut builder = Builder::new();
    let (zero, one, input) = (
        builder.constant(false),
        builder.constant(true),
        builder.input(),
    );
    let taking = builder.register(Some(false));
    let holding = builder.register(Some(true));
    let unknown = builder.register(None);
    let not = builder.not(!input);
    let and = builder.and(input, !holding);
    let or = builder.or(!zero, unknown);
    let xor = builder.xor(!and, !or);
    let mux = builder.mux(not, !one, !xor);
    builder.clock(taking, xor);
    builder.clock(unknown, one);
    builder.clock(unknown, !taking);
    builder.output(mux, true);
    builder.output(!input, false);
    let nets = [
        Net::new(CONST, 0, 0, 0),
        Net::new(CONST, 1, 0, 0),
        Net::new(INPUT, 0, 0, 0),
        Net::new(REG, 9, 0, 0),
        Net::new(REG, 4, 1, 0),
        Net::new(REG, INVERTED + 3, 2, 0),
        Net::new(NOT, INVERTED + 2, 0, 0),
        Net::new(AND, 2, INVERTED + 4, 0),
        Net::new(OR, INVERTED, 5, 0),
        Net::new(XOR, INVERTED + 7, INVERTED + 8, 0),
        Net::new(MUX, 6, INVERTED + 1, INVERTED + 9),
        Net::new(OUT, 10, 1, 0),
        Net::new(OUT, INVERTED + 2, 0, 0),
    ];
    assert_eq!(builder.image(), Ok(encode(&nets)));
    assert_eq!((builder.len(), builder.is_empty()), (13, false));
}

#[test]
fn nets_are_numbered_from_0() {
    let mut builder = Builder::new();
    assert_eq!((builder.len(), builder.is_empty()), (0, true));
    assert_eq!(builder.input(), Pin::of(0));
    assert_eq!(builder.register(None), Pin::of(1));
    assert_eq!(builder.output(Pin::of(1), true), Pin::of(2));
    assert_eq!(builder.not(Pin::of(2)), Pin::of(3));
}

// The inverted register takes the pin, so that the register takes it inverted.
#[test]
fn an_inverted_register_takes_the_inverted_pin() {
    for (taken, operand) in [(Pin::of(0), INVERTED), (!Pin::of(0), 0)] {
        let mut builder = Builder::new();
        builder.input();
        let register = builder.register(Some(false));
        builder.clock(!register, taken);
        let nets = [Net::new(INPUT, 0, 0, 0), Net::new(REG, operand, 0, 0)];
        assert_eq!(builder.image(), Ok(encode(&nets)));
    }
}

fn refused<T>(reason: Reason, place: usize) -> Result<T, Refusal> {
    Err(Refusal { reason, place })
}

// 65,536 is above the sizes that an image has bytes for.
#[test]
fn the_number_of_nets_is_1_to_8192() {
    let mut builder = Builder::new();
    assert_eq!(builder.image(), refused(Reason::NetsOutOfRange, 0));
    for nets in [1, 8_192, 8_193, 65_535, 65_536] {
        while builder.len() < nets {
            builder.register(None);
        }
        match builder.image() {
            Ok(image) => assert!(nets <= 8_192 && image.len() == 8 + 7 * nets),
            other => assert!(nets > 8_192 && other == refused(Reason::NetsOutOfRange, 0)),
        }
    }
}

// 32,768 + 0 and 65,536 + 0 would name net 0 if their low bits were taken.
#[test]
fn pins_on_no_net_below_are_refused() {
    for net in [1, 2, 8_191, 32_767, 32_768, 65_535, 65_536, usize::MAX] {
        for pin in [Pin::of(net), !Pin::of(net)] {
            let mut builder = Builder::new();
            builder.input();
            builder.output(pin, true);
            assert_eq!(builder.image(), refused(Reason::Pin, 1), "{pin:?}");
        }
    }
}

#[test]
fn a_register_takes_any_net_of_the_builder() {
    for (net, accepted) in [(0, true), (2, true), (3, false), (usize::MAX, false)] {
        let mut builder = Builder::new();
        builder.input();
        let register = builder.register(None);
        builder.clock(register, !Pin::of(net));
        builder.input();
        let answer = builder.image().map(|_| ());
        let expected = if accepted {
            Ok(())
        } else {
            refused(Reason::Pin, 1)
        };
        assert_eq!(answer, expected, "net {net}");
    }
}

#[test]
#[should_panic(expected = "net 0 is no register of this builder")]
fn an_input_is_not_clocked() {
    let mut builder = Builder::new();
    let input = builder.input();
    builder.clock(input, input);
}

#[test]
#[should_panic(expected = "net 1 is no register of this builder")]
fn a_net_behind_the_last_is_not_clocked() {
    let mut builder = Builder::new();
    let register = builder.register(None);
    builder.clock(Pin::of(1), register);
}
