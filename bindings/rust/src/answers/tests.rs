//! Answers decoded, each number worked out by hand. 2^32 is 4,294,967,296.

use super::*;

fn refused<T>(reason: Reason, place: usize) -> Result<T, Refusal> {
    Err(Refusal { reason, place })
}

fn first_flow(cycle: usize, verdict: Verdict) -> Result<FirstFlow, Refusal> {
    Ok(FirstFlow { cycle, verdict })
}

#[test]
fn zero_is_done() {
    assert_eq!(done(0), Ok(()));
}

#[test]
fn a_step_holds_its_verdict() {
    assert_eq!(step(65_535), Ok(Verdict::Clear));
    assert_eq!(step(1), Ok(Verdict::Flow { net: 1 }));
    assert_eq!(step(5), Ok(Verdict::Flow { net: 5 }));
    assert_eq!(step(8_191), Ok(Verdict::Flow { net: 8_191 }));
}

// 65,541 is 65,536 + 5, and 327,679 is 4 × 65,536 + 65,535. 268,378,111 is
// 4,095 × 65,536 + 8,191, and 268,500,991 is 4,096 × 65,536 + 65,535.
#[test]
fn a_run_holds_its_cycle_above_its_verdict() {
    assert_eq!(run(65_535), first_flow(0, Verdict::Clear));
    assert_eq!(run(65_541), first_flow(1, Verdict::Flow { net: 5 }));
    assert_eq!(run(327_679), first_flow(4, Verdict::Clear));
    let last = Verdict::Flow { net: 8_191 };
    assert_eq!(run(268_378_111), first_flow(4_095, last));
    assert_eq!(run(268_500_991), first_flow(4_096, Verdict::Clear));
}

#[test]
fn a_figure_is_a_number_of_nets() {
    assert_eq!(doubled_size(2), Ok(2));
    assert_eq!(doubled_size(16), Ok(16));
    assert_eq!(doubled_size(8_192), Ok(8_192));
    assert_eq!(doubled_kind(0), Ok(0));
    assert_eq!(doubled_kind(8_192), Ok(8_192));
}

// 1, 6, 9, 13, and 15 to 20 times 2^32, and the place: 33,554,431 is the index of
// the last of 4,096 × 8,192 row bytes, and 4,294,967,295, the largest place, that of
// a byte far behind in a record.
#[test]
fn a_refusal_holds_its_number_above_the_place() {
    assert_eq!(done(4_294_967_296), refused(Reason::ImageTooShort, 0));
    assert_eq!(done(25_769_803_781), refused(Reason::Value, 5));
    assert_eq!(step(25_769_803_781), refused(Reason::Value, 5));
    assert_eq!(run(38_654_705_664), refused(Reason::TooManyCycles, 0));
    assert_eq!(run(55_868_129_279), refused(Reason::RowByte, 33_554_431));
    let too_large = refused(Reason::DoubledTooLarge, 0);
    assert_eq!(doubled_size(64_424_509_440), too_large);
    assert_eq!(doubled_kind(64_424_509_440), too_large);
    assert_eq!(doubled_kind(25_769_803_781), refused(Reason::Value, 5));
    assert_eq!(done(68_719_476_736), refused(Reason::DoubledLength, 0));
    assert_eq!(done(73_014_444_032), refused(Reason::DoubledRefused, 0));
    assert_eq!(run(77_309_411_328), refused(Reason::StaticByte, 0));
    assert_eq!(run(77_342_965_759), refused(Reason::StaticByte, 33_554_431));
    assert_eq!(done(81_604_378_624), refused(Reason::PageLength, 0));
    assert_eq!(step(85_899_345_920), refused(Reason::StateCount, 0));
    let far_behind = refused(Reason::RowByte, 4_294_967_295);
    assert_eq!(done(60_129_542_143), far_behind);
}

#[test]
#[should_panic(expected = "the answer 90194313216, which this wrapper does not know")]
fn refusal_21_is_unknown() {
    let _ = done(90_194_313_216);
}

#[test]
#[should_panic(expected = "the answer 1, which")]
fn done_is_zero_alone() {
    let _ = done(1);
}

// 0 is the answer of a check, and neither clear nor a flow.
#[test]
#[should_panic(expected = "the answer 0, which")]
fn zero_is_no_answer_of_a_step() {
    let _ = step(0);
}

#[test]
#[should_panic(expected = "the answer 0, which")]
fn zero_is_no_answer_of_a_run() {
    let _ = run(0);
}

// 262,144 is 4 × 65,536, a cycle without a verdict.
#[test]
#[should_panic(expected = "the answer 262144, which")]
fn a_run_without_a_verdict_is_unknown() {
    let _ = run(262_144);
}

#[test]
#[should_panic(expected = "the answer 65535, which")]
fn a_verdict_is_not_done() {
    let _ = done(65_535);
}

#[test]
#[should_panic(expected = "the answer 8192, which")]
fn a_flow_at_net_8192_is_unknown() {
    let _ = step(8_192);
}

#[test]
#[should_panic(expected = "the answer 131071, which")]
fn a_step_holds_no_cycle() {
    let _ = step(131_071);
}

// 8,192 is cycle 0 and a flow at net 8,192.
#[test]
#[should_panic(expected = "the answer 8192, which")]
fn a_run_with_a_flow_at_net_8192_is_unknown() {
    let _ = run(8_192);
}

// 268,566,527 is 4,097 × 65,536 + 65,535.
#[test]
#[should_panic(expected = "the answer 268566527, which")]
fn a_run_with_cycle_4097_is_unknown() {
    let _ = run(268_566_527);
}

#[test]
#[should_panic(expected = "the answer 8193, which")]
fn a_doubled_netlist_of_8193_nets_is_unknown() {
    let _ = doubled_size(8_193);
}

#[test]
#[should_panic(expected = "the answer 0, which")]
fn a_doubled_netlist_without_nets_is_unknown() {
    let _ = doubled_size(0);
}

#[test]
#[should_panic(expected = "the answer 65535, which")]
fn a_verdict_is_no_figure() {
    let _ = doubled_kind(65_535);
}
