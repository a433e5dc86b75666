//! Form "lists": the shape of the library's run, with unchecked reads.
//!
//! Once a run, the numbers of the INPUTs, the REGs and the OUTs are listed in one
//! array, the constants are set and the lowest gate is found. In a cycle the
//! row's and the state's bytes are put at their nets, the gates are settled in
//! net order, and the verdict, the outputs and the clock go through the lists.
//! Nets stand with their inverses.

use super::both::Both;
use super::read::{kind, operand};
use super::settle::settle_nets;
use crate::call::{Call, First};
use tracker::kinds::{CONST, INPUT, NOT, OUT, REG};
use tracker::{Sizes, MOST_NETS};

/// The lists, as parts of one array.
struct Lists<'a> {
    inputs: &'a [u16],
    registers: &'a [u16],
    outputs: &'a [u16],
}

/// The k cycles of an accepted run.
pub fn cycles(mut call: Call, z: Sizes) -> First {
    let (image, n) = (call.image.as_ptr(), z.nets);
    let mut space = [0u16; MOST_NETS];
    let mut nets = Both::empty();
    let mut first = None;
    // SAFETY, here and below: the image, the state and the rows have been accepted.
    let lists = unsafe { list_kinds(image, z, &mut space) };
    let gates = unsafe { prepare(image, n, &mut nets) };
    for cycle in 0..call.k {
        unsafe {
            put_bytes(lists.inputs, call.row(z, cycle), &mut nets);
            put_bytes(lists.registers, call.state, &mut nets);
            settle_nets(image, n, gates, &mut nets);
            if first.is_none() {
                first = verdict(image, n, lists.outputs, &nets).map(|net| (cycle, net));
            }
            take_bytes(lists.outputs, &nets, call.slot(z, cycle));
            clock(image, n, lists.registers, &nets, call.state);
        }
    }
    first
}

/// The lists of an accepted image.
unsafe fn list_kinds(image: *const u8, z: Sizes, space: &mut [u16]) -> Lists<'_> {
    let (inputs, rest) = space.split_at_mut(z.inputs);
    let (registers, rest) = rest.split_at_mut(z.registers);
    let outputs = &mut rest[..z.outputs];
    list_nets(image, INPUT, inputs);
    list_nets(image, REG, registers);
    list_nets(image, OUT, outputs);
    Lists {
        inputs,
        registers,
        outputs,
    }
}

/// The numbers of all nets of a kind. The list is as long as there are such nets.
unsafe fn list_nets(image: *const u8, wanted: u8, list: &mut [u16]) {
    let (mut found, mut i) = (0, 0);
    while found < list.len() {
        *list.get_unchecked_mut(found) = i as u16;
        found += usize::from(kind(image, i) == wanted);
        i += 1;
    }
}

/// Sets the constants, and all other nets to 0. The answer is the lowest gate.
unsafe fn prepare(image: *const u8, n: usize, nets: &mut Both) -> usize {
    for i in 0..n {
        let byte = u8::from(kind(image, i) == CONST) * operand(image, n, i, 0) as u8;
        nets.put(i, byte);
    }
    (0..n).find(|i| kind(image, *i) >= NOT).unwrap_or(n)
}

/// Each listed net takes a byte, in order.
unsafe fn put_bytes(list: &[u16], bytes: &[u8], nets: &mut Both) {
    for (net, byte) in list.iter().zip(bytes) {
        nets.put(usize::from(*net), *byte);
    }
}

/// The bytes of the listed nets, in order.
unsafe fn take_bytes(list: &[u16], nets: &Both, bytes: &mut [u8]) {
    for (net, byte) in list.iter().zip(bytes) {
        *byte = nets.read(usize::from(*net));
    }
}

/// Every listed register takes the byte that its pin reads.
unsafe fn clock(image: *const u8, n: usize, list: &[u16], nets: &Both, state: &mut [u8]) {
    for (net, byte) in list.iter().zip(state) {
        *byte = nets.read(operand(image, n, usize::from(*net), 0));
    }
}

/// The first of the listed OUTs that is protected and has mark 1.
unsafe fn verdict(image: *const u8, n: usize, list: &[u16], nets: &Both) -> Option<usize> {
    let mut nets_listed = list.iter().map(|net| usize::from(*net));
    nets_listed.find(|i| operand(image, n, *i, 1) == 1 && nets.read(*i) >= 2)
}
