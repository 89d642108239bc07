//! The second implementation, called from C as the library is: the measure of plain Rust.

use second::{Dbr, Fault, Pointer, Registers, Reply};

#[repr(C)]
#[derive(Clone, Copy)]
pub struct CPointer {
    ring: u8,
    segment: u16,
    word: u16,
}

#[repr(C)]
pub struct CDbr {
    address: u32,
    length: u16,
}

#[repr(C)]
pub struct CRegisters {
    a: u64,
    dbr: CDbr,
    ipr: CPointer,
    prs: [CPointer; 8],
    fault_switch: u16,
    save_segment: u16,
    handler_segment: u16,
}

const _: () = assert!(std::mem::size_of::<CRegisters>() == 80);
const _: () = assert!(std::mem::offset_of!(CRegisters, fault_switch) == 70);
const _: () = assert!(std::mem::offset_of!(CRegisters, handler_segment) == 74);

#[repr(C)]
pub struct CReply {
    kind: u32,
    number: u32,
    count: u32,
    pointer: CPointer,
    pointer_words: u64,
}

fn from_c(p: CPointer) -> Pointer {
    Pointer { ring: p.ring, segno: p.segment, wordno: p.word }
}

fn to_c(p: Pointer) -> CPointer {
    CPointer { ring: p.ring, segment: p.segno, word: p.wordno }
}

/// As kuzhlemor_run.
///
/// # Safety
/// `registers` is one record and `memory` has `words` words, both lent to this call alone.
#[no_mangle]
pub unsafe extern "C" fn rust_run(registers: *mut CRegisters, memory: *mut u64, words: usize, budget: u32) -> CReply {
    let (record, memory) = unsafe { (&mut *registers, std::slice::from_raw_parts_mut(memory, words)) };
    let mut registers = Registers {
        a: record.a,
        dbr: Dbr { address: record.dbr.address, length: record.dbr.length },
        ipr: from_c(record.ipr),
        pr: record.prs.map(from_c),
        fault_switch: record.fault_switch,
        save_segment: record.save_segment,
        handler_segment: record.handler_segment,
    };
    let reply = second::run(&mut registers, memory, budget);
    record.a = registers.a;
    record.dbr = CDbr { address: registers.dbr.address, length: registers.dbr.length };
    record.ipr = to_c(registers.ipr);
    record.prs = registers.pr.map(to_c);
    let (kind, number, count, pointer) = match reply {
        Reply::Refused { number } => (0, number, 0, Pointer::default()),
        Reply::Spent { count, .. } => (1, 0, count, Pointer::default()),
        Reply::Halted { count, .. } => (2, 0, count, Pointer::default()),
        Reply::Fault { fault: Fault { number, at }, count, .. } => (3, number, count, at),
    };
    CReply { kind, number: u32::from(number), count, pointer: to_c(pointer), pointer_words: reply.pointer_words() }
}

/// As kuzhlemor_bench.
///
/// # Safety
/// `image` has `image_length` bytes and `text` has `text_length`, the second lent to this call alone.
#[no_mangle]
pub unsafe extern "C" fn rust_bench(image: *const u8, image_length: usize, text: *mut u8, text_length: usize) -> i64 {
    let (image, text) = unsafe {
        (std::slice::from_raw_parts(image, image_length), std::slice::from_raw_parts_mut(text, text_length))
    };
    second::bench(image, text)
}
