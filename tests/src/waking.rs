//! States with which a netlist wakes: that of power-up, and those in which the
//! registers without a start hold any values.

use crate::call::Call;
use crate::case::Case;
use crate::failure::Failure;
use crate::random::Random;
use crate::states;
use tracker::kinds::REG;
use tracker::Image;

/// The start of a register for which none is given.
const NONE_GIVEN: u16 = 2;

/// The state at power-up of a good image with so many registers.
pub fn power_up(case: &mut Case, image: &[u8], registers: usize) -> Result<Vec<u8>, Box<Failure>> {
    let mut powered = Call::power_up(case.random.bytes(states::length(registers)));
    let answer = case.ask(image, &mut powered)?;
    if answer != 0 {
        return Err(case.broken(image, &powered, answer, "a good image is powered up"));
    }
    Ok(powered.state)
}

/// The state at static power-up of a good image with so many registers.
pub fn static_power_up(
    case: &mut Case,
    image: &[u8],
    registers: usize,
) -> Result<Vec<u8>, Box<Failure>> {
    let mut powered = Call::static_power_up(case.random.bytes(registers));
    let answer = case.ask(image, &mut powered)?;
    if answer != 0 {
        let property = "a good image is statically powered up";
        return Err(case.broken(image, &powered, answer, property));
    }
    Ok(powered.state)
}

/// A state with which a netlist may wake, with its count. Each register has its start,
/// trusted, or, where none is given, any value, untrusted.
pub fn waking(random: &mut Random, image: Image) -> Vec<u8> {
    let registers = image.nets().filter(|net| net.kind == REG);
    let bytes = registers.map(|register| match register.operands[1] {
        NONE_GIVEN => 2 + random.byte() % 2,
        start => start as u8,
    });
    states::of(&bytes.collect::<Vec<u8>>())
}
