//! The reference for programs in C; `host/reference.h` declares the same.
//!
//! Nothing else in this library is unsafe: here are the pointers that a C program hands over, and
//! the octets that it is lent.

#![allow(unsafe_code)]

use std::slice;

use crate::call::CallKind;
use crate::fuzz;
use crate::generate::hosts::{Case, Hosts};
use crate::host::{self, Arguments, HostCall};
use crate::host_places::HostSurvey;

/// Block, table, buffer, rows, octets.
const PARTS: usize = 5;

/// Octets to be read.
#[repr(C)]
#[derive(Clone, Copy)]
pub struct Octets {
    at: *const u8,
    length: usize,
}

impl Octets {
    fn of(octets: &[u8]) -> Octets {
        Octets {
            at: octets.as_ptr(),
            length: octets.len(),
        }
    }
}

/// A call with what it is lent, what the reference returns for it, and what that leaves. The octets
/// stay where they are up to the next call.
#[repr(C)]
pub struct HostCase {
    kind: u8,
    capability: u8,
    as_number: u16,
    address: u32,
    net: u32,
    quiet: u8,
    result: u64,
    before: [Octets; PARTS],
    after: [Octets; PARTS],
    aim: Octets,
}

/// What a C program has of the reference: a list of calls, the one at hand, and what was reached.
pub struct Reference {
    hosts: Hosts,
    survey: HostSurvey,
    case: Case,
}

impl Reference {
    /// Describes the case at hand.
    fn show(&self, shown: &mut HostCase) {
        let Case {
            call,
            aim,
            result,
            after,
            ..
        } = &self.case;
        let parts = |lent: &host::Lent| {
            [
                Octets::of(&lent.block),
                Octets::of(&lent.table),
                Octets::of(&lent.buffer),
                Octets::of(&call.rows),
                Octets::of(&call.octets),
            ]
        };
        *shown = HostCase {
            kind: kind_number(call.kind),
            capability: call.capability,
            as_number: call.as_number,
            address: call.address,
            net: call.net,
            quiet: call.quiet,
            result: *result,
            before: parts(&call.lent),
            after: parts(after),
            aim: Octets::of(aim.as_bytes()),
        };
    }
}

/// The kinds in their order, from 0.
fn kind_number(kind: CallKind) -> u8 {
    let place = CallKind::ALL.iter().position(|other| *other == kind);
    place.unwrap_or_default() as u8
}

#[no_mangle]
pub extern "C" fn reference_open(seed: u64) -> Box<Reference> {
    Box::new(Reference {
        hosts: Hosts::new(seed),
        survey: HostSurvey::default(),
        case: Case::of(HostCall::bare(CallKind::Fresh), ""),
    })
}

/// Begins the list of another seed; what was reached so far counts on.
#[no_mangle]
pub extern "C" fn reference_begin(reference: &mut Reference, seed: u64) {
    reference.hosts = Hosts::new(seed);
}

/// The next call of the list.
#[no_mangle]
pub extern "C" fn reference_next(reference: &mut Reference, case: &mut HostCase) {
    if let Some(next) = reference.hosts.next() {
        reference.case = next;
    }
    reference.show(case);
}

/// The call at hand was compared: counts what it reached.
#[no_mangle]
pub extern "C" fn reference_count(reference: &mut Reference) {
    reference.survey.observe(&reference.case);
}

/// The call that a fuzzer's input stands for.
///
/// # Safety
///
/// `length` octets can be read at `at`.
#[no_mangle]
pub unsafe extern "C" fn reference_input(
    reference: &mut Reference,
    at: *const u8,
    length: usize,
    case: &mut HostCase,
) {
    let input = octets(Octets { at, length });
    reference.case = Case::of(fuzz::call_of(input), "input");
    reference.show(case);
}

/// Says what was reached, and what not often enough; whether all was.
#[no_mangle]
pub extern "C" fn reference_report(reference: &Reference) -> bool {
    let survey = &reference.survey;
    print!("{}", survey.report());
    let missed = survey.missed();
    for place in &missed {
        println!("fewer than {} times: {place}", survey.wanted());
    }
    for breach in survey.breaches() {
        println!("breach: {breach}");
    }
    missed.is_empty() && survey.breaches().is_empty()
}

#[no_mangle]
pub extern "C" fn reference_close(reference: Box<Reference>) {
    drop(reference);
}

/// Makes a call that the C program has put together, with these parts: what it returns. What it
/// leaves stands in the parts.
///
/// # Safety
///
/// Each part has its octets, and none overlaps another; the first three can be written.
#[no_mangle]
pub unsafe extern "C" fn reference_make(case: &HostCase, parts: &[Octets; PARTS]) -> u64 {
    let [block, table, buffer, rows, message] = *parts;
    host::make(Arguments {
        kind: CallKind::ALL[usize::from(case.kind)],
        capability: case.capability,
        as_number: case.as_number,
        address: case.address,
        net: case.net,
        quiet: case.quiet,
        block: octets_lent(block),
        table: octets_lent(table),
        buffer: octets_lent(buffer),
        rows: octets(rows),
        octets: octets(message),
    })
}

unsafe fn octets<'a>(part: Octets) -> &'a [u8] {
    match part.length {
        0 => &[],
        length => slice::from_raw_parts(part.at, length),
    }
}

unsafe fn octets_lent<'a>(part: Octets) -> &'a mut [u8] {
    match part.length {
        0 => &mut [],
        length => slice::from_raw_parts_mut(part.at.cast_mut(), length),
    }
}
