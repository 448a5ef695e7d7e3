//! An argument of a call is protected, so a write through another pointer is refused while the call lasts.
//! First request by request on a memory of our own, then a whole run as one list, and last the end of a memory
//! with 16-bit pointers. examples/c/protected.c is the same in C, and prints the same.

use tree_borrows::{
    byte, Align, FrameNumber, Given, List, Memory, MemoryKind, Pointee, Pointer, PointerKind,
};
use tree_borrows::{Provenance, Refusal, Refused, Width};

const ADDRESS: u64 = 0x10;

fn main() -> Result<(), Refusal> {
    request_by_request()?;
    as_one_list();
    narrow()
}

fn request_by_request() -> Result<(), Refusal> {
    let mut memory = Memory::new(Width::Bits64);
    println!("new: 0");
    let root = memory.allocate(MemoryKind::Heap, 1, Align::ONE, ADDRESS)?;
    println!("allocate: 0, {}", name(root));

    let mut frame = memory.new_call();
    println!("new call: 0");
    let x = memory.retag_argument(&mut frame, root, PointerKind::MutableReference, &Pointee::of::<u8>())?;
    println!("retag: 0, {}", name(x));

    memory.store(x, &[byte(1)], Align::ONE)?;
    println!("store through the argument: 0");
    let refused = memory.store(root, &[byte(2)], Align::ONE).expect_err("the argument has written the byte");
    println!("store through the root: {}", refused.number());
    memory.end_call(&mut frame)?;
    println!("end call: 0");
    memory.store(root, &[byte(2)], Align::ONE)?;
    println!("store through the root: 0");

    let words = memory.load(root, 1, Align::ONE)?;
    println!("load: 0\nloaded: {:08x}", words[0]);

    let leak = memory.leak().expect("the allocation is live");
    println!("leak check: {}\nleaks: allocation {leak}", Refusal::MemoryLeak.number());
    memory.deallocate(root, MemoryKind::Heap, 1, Align::ONE)?;
    println!("deallocate: 0");
    assert_eq!(memory.leak(), None);
    println!("leak check: 0");
    Ok(())
}

/// Allocation and node of a pointer.
fn name(pointer: Pointer) -> String {
    pointer.provenance.map_or("-".into(), |named| format!("{}.{}", named.allocation, named.node))
}

fn as_one_list() {
    let named = |node| Pointer { address: ADDRESS, provenance: Some(Provenance { allocation: 0, node }) };
    let (root, x) = (named(0), named(1));
    let call = FrameNumber::new(0).expect("there are 32");

    let mut list = List::new();
    list.allocate(MemoryKind::Heap, 1, Align::ONE, ADDRESS);
    list.new_call(call);
    list.retag_argument(call, root, PointerKind::MutableReference, &Pointee::of::<u8>());
    list.store(x, &[byte(1)], Align::ONE);
    list.store(root, &[byte(2)], Align::ONE);
    list.end_call(call);
    list.load(x, 1, Align::ONE);
    list.leak_check();

    let outcome = list.run();
    assert_eq!(outcome.memory.width(), Width::Bits64);
    let answers = outcome.answers;
    let numbers = answers.iter().map(|answer| answer.as_ref().map_or_else(|r| r.refusal.number(), |_| 0));
    println!("list: {}", numbers.map(|number| number.to_string()).collect::<Vec<_>>().join(" "));
    assert_eq!(answers[6], Ok(Given::Words(vec![byte(1)])));
    assert_eq!(answers[7], Err(Refused { refusal: Refusal::MemoryLeak, leak: Some(0) }));
}

/// Firmware with 16-bit pointers: what lies at the end of its memory.
fn narrow() -> Result<(), Refusal> {
    let mut memory = Memory::new(Width::Bits16);
    println!("new, 16 bits: 0");
    let mut allocate = |size| memory.allocate(MemoryKind::Global, size, Align::ONE, 0xfff0);
    let refused = allocate(16).expect_err("it would end at 0x10000");
    println!("allocate up to 0x10000: {}", refused.number());
    let root = allocate(15)?;
    println!("allocate up to 0xffff: 0, {}", name(root));
    let third_byte_of_a_pointer = 0xd0000000;
    let refused = memory.store(root, &[third_byte_of_a_pointer], Align::ONE).expect_err("a pointer has two");
    println!("store the third byte of a pointer: {}", refused.number());
    let above = Pointer { address: 0x10000, ..root };
    let refused = memory.load(above, 0, Align::ONE).expect_err("this is no address");
    println!("load nothing at 0x10000: {}", refused.number());
    assert_eq!(memory.leak(), None);
    println!("leak check: 0");
    let mut buffers = memory.buffers().clone();
    buffers.width = 24;
    println!("leak check, 24 bits: {}", buffers.leak_check().refusal);
    Ok(())
}
