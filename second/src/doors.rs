//! The doors, which are the gates that lead into lower rings; the program that lists them; and the claim that in a run the
//! ring falls only there or by a delivered fault, with no PR's ring below IPR's after any step.

use crate::frame;
use crate::image::{read_image, Image};
use crate::machine::{
    descriptor_of, fetch, form_address, prs_are_at_or_above_ipr, save_segment, words_of, Check, Fault, Registers,
};
use crate::opcodes::CALL;
use crate::words::{Descriptor, Pointer, PointerWord};

/// A segment's gates, words 0 to `last`: rings `from` to `to` come through them into ring `new`.
#[derive(Clone, Copy, Debug, PartialEq, Eq)]
pub struct Door {
    pub segno: u16,
    pub last: u16,
    pub from: u8,
    pub to: u8,
    pub new: u8,
}

impl Door {
    /// Of a segment that passes 11 to 14: if it has E on, a gate among its words and a gate extension.
    fn of(segno: u16, segment: &Descriptor) -> Option<Door> {
        let gates = segment.gate.min(segment.length);
        let leads_down = segment.e && gates > 0 && segment.r2 < segment.r3;
        leads_down.then(|| Door { segno, last: gates - 1, from: segment.r2 + 1, to: segment.r3, new: segment.r2 })
    }

    /// Does a CALL from this ring by this TPR come through it to where IPR now is?
    pub fn leads(&self, ring: u8, tpr: &Pointer, ipr: &Pointer) -> bool {
        let rings = self.from..=self.to;
        let is_its_gate = tpr.segno == self.segno && tpr.wordno <= self.last;
        is_its_gate && rings.contains(&ring) && rings.contains(&tpr.ring) && *ipr == Pointer { ring: self.new, ..*tpr }
    }
}

/// The door that a segment is, if it is one. 1 to 4 have passed.
pub fn door(registers: &Registers, memory: &[u64], segno: u16) -> Option<Door> {
    let first = Pointer { segno, ..Pointer::default() };
    let segment = descriptor_of(&registers.dbr, memory, &first).ok()?;
    Door::of(segno, &segment)
}

/// All of them, in the order of their segments.
pub fn doors(registers: &Registers, memory: &[u64]) -> Vec<Door> {
    (0..registers.dbr.length).filter_map(|segno| door(registers, memory, segno)).collect()
}

// ---- The program.

/// What the program prints for an image: the doors of its start. The budget isn't used.
pub fn doors_text(bytes: &[u8]) -> String {
    match read_image(bytes) {
        Ok(Image { registers, memory, .. }) => list(&registers, &memory),
        Err(number) => format!("refused {number}\n"),
    }
}

fn list(registers: &Registers, memory: &[u64]) -> String {
    let doors = doors(registers, memory);
    let mut text = String::new();
    for Door { segno, last, from, to, new } in &doors {
        text += &format!("door {segno} {last} {from} {to} {new}\n");
    }
    // With the switch on, a fault leads into ring 0 as well.
    if registers.fault_switch == 1 {
        text += &format!("faults {} {}\n", registers.save_segment, registers.handler_segment);
    }
    text + &format!("doors {}\n", doors.len())
}

// ---- The claim.

/// A machine before a step, or after it.
#[derive(Clone, Copy, Debug)]
pub struct State<'s> {
    pub registers: &'s Registers,
    pub memory: &'s [u64],
}

/// What a completed step did to IPR's ring.
#[derive(Clone, Copy, Debug, PartialEq, Eq)]
pub enum Change {
    Kept,
    Rose,
    /// It fell by a CALL with this TPR, through this door.
    Called {
        tpr: Pointer,
        door: Door,
    },
    /// It fell to 0 by a delivered fault.
    Delivered,
}

/// What of the claim doesn't hold.
#[derive(Clone, Copy, Debug, PartialEq, Eq)]
pub enum Breach {
    /// A PR's ring is below IPR's.
    LowPr,
    // The others are of a ring that fell without a delivered fault.
    /// At IPR stood no CALL that forms its TPR.
    NoCall,
    /// TPR's segment doesn't pass 11 to 14.
    NoSegment,
    /// TPR's segment is the instruction's.
    SameSegment,
    /// TPR's word isn't below GATE.
    NoGate,
    /// IPR's ring isn't above R2.
    NotAboveR2,
    /// TPR's ring is above R3.
    AboveR3,
    /// The new ring isn't R2.
    OtherRing,
    /// No door is listed for this word and these rings, or it leads elsewhere.
    NoDoor,
}

/// The claim of what any run leaves: is no PR's ring below IPR's?
pub fn no_pr_is_low(after: &Registers) -> bool {
    prs_are_at_or_above_ipr(after)
}

/// The claim of a completed step from a machine that 1 to 4 let by. What the step was is worked out from the machine
/// before it; whether the ring fell, and where IPR is, from the one after it.
#[inline]
pub fn change(before: State, after: State) -> Result<Change, Breach> {
    if !no_pr_is_low(after.registers) {
        return Err(Breach::LowPr);
    }
    let [old, new] = [before, after].map(|state| state.registers.ipr.ring);
    if new < old {
        fall(before, after)
    } else if new == old {
        Ok(Change::Kept)
    } else {
        Ok(Change::Rose)
    }
}

fn fall(before: State, after: State) -> Result<Change, Breach> {
    if was_delivered(before, after) {
        return Ok(Change::Delivered);
    }
    let State { registers: Registers { dbr, ipr, .. }, memory } = before;
    let call = fetch(before.registers, memory).ok().filter(|instruction| instruction.opcode == CALL);
    let call = call.ok_or(Breach::NoCall)?;
    let tpr = form_address(before.registers, memory, &call).tpr.map_err(|_| Breach::NoCall)?;
    let target = descriptor_of(dbr, memory, &tpr).map_err(|_| Breach::NoSegment)?;
    let claims = [
        (tpr.segno != ipr.segno, Breach::SameSegment),
        (tpr.wordno < target.gate, Breach::NoGate),
        (target.r2 < ipr.ring, Breach::NotAboveR2),
        (tpr.ring <= target.r3, Breach::AboveR3),
        (after.registers.ipr.ring == target.r2, Breach::OtherRing),
    ];
    if let Some((_, breach)) = claims.into_iter().find(|(holds, _)| !holds) {
        return Err(breach);
    }
    let door = door(before.registers, memory, tpr.segno);
    let door = door.filter(|door| door.leads(ipr.ring, &tpr, &after.registers.ipr)).ok_or(Breach::NoDoor)?;
    Ok(Change::Called { tpr, door })
}

/// Does IPR stand at the handler's first word in ring 0, and the frame of some fault in the save segment?
fn was_delivered(before: State, after: State) -> bool {
    let State { registers, memory } = before;
    let handler = Pointer { ring: 0, segno: registers.handler_segment, wordno: 0 };
    if registers.fault_switch == 0 || after.registers.ipr != handler {
        return false;
    }
    let Some(segment) = save_segment(registers, memory) else { return false };
    let frame = &words_of(&segment, after.memory)[..frame::WORDS];
    // The questions of a step.
    let Ok(number @ (11..=15 | 21..=34 | 52)) = u8::try_from(frame[0]) else { return false };
    let fault = Fault { number, at: PointerWord::from_word(frame[1]).pointer };
    frame == frame::of_fault(&fault, registers)
}

// ---- What the check of CALL says of a door.

/// A caller, the pointer that it calls, and what the check says.
#[derive(Clone, Copy, Debug)]
pub struct Call {
    pub registers: Registers,
    pub pointer: Pointer,
    pub says: Says,
}

#[derive(Clone, Copy, Debug, PartialEq, Eq)]
pub enum Says {
    /// It goes on in this ring.
    Passes(u8),
    /// There is no gate: 27, or 15 where there is no word.
    NoGate,
    /// The ring is above R3: 28.
    AboveR3,
    /// Whatever it is, the ring doesn't fall below this one.
    NotBelow(u8),
}

impl Says {
    pub fn is(self, check: Check) -> bool {
        match (self, check) {
            (Says::Passes(new), Check::Passes { ring }) => ring == new,
            (Says::NotBelow(least), Check::Passes { ring }) => ring >= least,
            (Says::NoGate, Check::Fault(Fault { number, .. })) => matches!(number, 15 | 27),
            (Says::AboveR3, Check::Fault(Fault { number, .. })) => number == 28,
            (Says::NotBelow(_), Check::Fault(_)) => true,
            _ => false,
        }
    }
}

/// Calls from another segment to this one, which is below DBR LENGTH. A door: the first and the last ring come down by its
/// first and its last word, and by no further word; the ring below the first passes and stays, and the one above the last
/// doesn't pass. No door: nobody comes down, not even by word 0.
pub fn calls(registers: &Registers, memory: &[u64], segno: u16) -> Vec<Call> {
    let call = |ring: u8, tpr_ring: u8, wordno: u16, says: Says| {
        let mut registers = *registers;
        registers.ipr = Pointer { ring, segno: segno ^ 1, ..registers.ipr };
        for pr in &mut registers.pr {
            pr.ring = pr.ring.max(ring);
        }
        Call { registers, pointer: Pointer { ring: tpr_ring, segno, wordno }, says }
    };
    let Some(Door { last, from, to, new, .. }) = door(registers, memory, segno) else {
        let word = memory[registers.dbr.address as usize + usize::from(segno)];
        let Descriptor { r2, r3, .. } = Descriptor::from_word(word);
        let rings = [(r2 + 1, r2 + 1), (r2 + 1, r3), (r3, r3), (7, 7)];
        let allowed = rings.into_iter().filter(|(ring, tpr_ring)| *ring <= 7 && ring <= tpr_ring);
        return allowed.map(|(ring, tpr_ring)| call(ring, tpr_ring, 0, Says::NotBelow(ring))).collect();
    };
    let mut calls = Vec::new();
    for (ring, tpr_ring) in [(from, from), (from, to), (to, to)] {
        calls.push(call(ring, tpr_ring, 0, Says::Passes(new)));
        calls.push(call(ring, tpr_ring, last, Says::Passes(new)));
        calls.push(call(ring, tpr_ring, last + 1, Says::NoGate));
    }
    calls.push(call(new, new, last, Says::Passes(new)));
    if to < 7 {
        calls.push(call(from, to + 1, last, Says::AboveR3));
        calls.push(call(to + 1, to + 1, 0, Says::AboveR3));
    }
    calls
}
