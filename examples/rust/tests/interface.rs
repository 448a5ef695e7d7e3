//! The wrapper against what docs/FORMAT.md and include/tree_borrows.h say.

#![allow(clippy::single_range_in_vec_init, clippy::reversed_empty_ranges)]

use std::mem::{offset_of, size_of};
use tree_borrows::raw::{self, Entry, ListReply, Reply, RetagReply, RetagSettings};
use tree_borrows::{
    byte, Align, Buffers, FrameNumber, Given, List, Memory, MemoryKind, Metadata, Part, Pointee,
};
use tree_borrows::{Pointer, PointerKind, Provenance, Refusal, Refused, Shape, Width, UNINITIALISED};

fn pointer(address: u64, allocation: u32, node: u32) -> Pointer {
    Pointer { address, provenance: Some(Provenance { allocation, node }) }
}

fn words(list: &List) -> Vec<u32> {
    let bytes = list.to_bytes();
    bytes.chunks_exact(4).map(|word| u32::from_be_bytes(word.try_into().unwrap())).collect()
}

fn frame(number: u32) -> FrameNumber {
    FrameNumber::new(number).unwrap()
}

/// The first run of docs/FORMAT.md.
fn aliasing_write() -> List {
    let mut list = List::new();
    list.allocate(MemoryKind::Heap, 2, Align::ONE, 16);
    list.retag(pointer(16, 0, 0), PointerKind::MutableReference, &Pointee::of::<u16>());
    list.store(pointer(16, 0, 1), &[byte(7)], Align::ONE);
    list.load(pointer(16, 0, 0), 1, Align::ONE);
    list.store(pointer(16, 0, 1), &[byte(8)], Align::ONE);
    list
}

#[test]
fn a_list_is_the_run_of_the_page() {
    let list = aliasing_write();
    let run = [
        0x00000001, 0, 0x10, 2, // allocate
        0x40000101, 0, 0x10, 0x60000002, 0, 2, // retag
        0x30000300, 0, 0x10, 1, 0x80000007, // store
        0x20000100, 0, 0x10, 1, // load
        0x30000300, 0, 0x10, 1, 0x80000008, // store
    ];
    assert_eq!(words(&list), run);
    let outcome = list.run();
    let made = |node| Ok(Given::Pointer(Provenance { allocation: 0, node }));
    let loaded = Ok(Given::Words(vec![byte(7)]));
    let expected = [made(0), made(1), Ok(Given::Nothing), loaded, Err(Refusal::LocalWriteOfFrozen.into())];
    assert_eq!(outcome.answers, expected);
    let buffers = outcome.memory.buffers();
    assert_eq!(buffers.allocs[..7], [1, 1, 0, 16, 2, 2, 0]);
    assert_eq!(buffers.words[..3], [byte(7), UNINITIALISED, 0]);
    assert_eq!(buffers.codes[..5], [3, 3, 4, 1, 0]);
}

/// The first run of docs/FORMAT.md, and a memory with an allocation that is dead and one without bytes.
#[test]
fn a_memory_prints_as_the_program_does() {
    let printed = "a 0 live heap 16 2 0\nd 0 80000007 00000000\nn 0 0 - no 33\nn 0 1 0 no 41\n";
    assert_eq!(aliasing_write().run().memory.to_string(), printed);
    let mut memory = Memory::new(Width::Bits64);
    let root = memory.allocate(MemoryKind::Global, 1, Align::of::<u64>(), 8).unwrap();
    let mut call = memory.new_call();
    memory.retag_argument(&mut call, root, PointerKind::Box, &Pointee::of::<u8>()).unwrap();
    memory.end_call(&mut call).unwrap();
    memory.deallocate(root, MemoryKind::Global, 1, Align::of::<u64>()).unwrap();
    let empty = memory.allocate(MemoryKind::VTable, 0, Align::ONE, 8).unwrap();
    let child = memory.retag_argument(&mut call, empty, PointerKind::Box, &Pointee::of::<()>()).unwrap();
    memory.retag(child, PointerKind::SharedReference, &Pointee::of::<()>()).unwrap();
    memory.allocate(MemoryKind::Stack, 1, Align::ONE, 32).unwrap();
    let printed = "a 0 dead global 8 1 3\nd 0 00000000\nn 0 0 - no 3\nn 0 1 0 no 5\n\
        a 1 live vtable 8 0 0\nd 1 -\nn 1 0 - no -\nn 1 1 0 weak -\nn 1 2 1 no -\n\
        a 2 live stack 32 1 0\nd 2 00000000\nn 2 0 - no 3\n";
    assert_eq!(memory.to_string(), printed);
}

#[test]
fn a_memory_answers_as_a_list_does() {
    let mut memory = Memory::new(Width::Bits64);
    let root = memory.allocate(MemoryKind::Heap, 2, Align::ONE, 16).unwrap();
    let r = memory.retag(root, PointerKind::MutableReference, &Pointee::of::<u16>()).unwrap();
    memory.store(r, &[byte(7)], Align::ONE).unwrap();
    assert_eq!(memory.load(root, 1, Align::ONE), Ok(&[byte(7)][..]));
    let before = memory.clone();
    assert_eq!(memory.store(r, &[byte(8)], Align::ONE), Err(Refusal::LocalWriteOfFrozen));
    assert_eq!(memory, before);
    assert_eq!(memory, aliasing_write().run().memory);
}

#[test]
fn loads_stand_behind_those_of_earlier_allocations() {
    let mut memory = Memory::new(Width::Bits64);
    memory.allocate(MemoryKind::Stack, 3, Align::ONE, 16).unwrap();
    let second = memory.allocate(MemoryKind::Stack, 3, Align::ONE, 32).unwrap();
    memory.store(second.offset(1), &[byte(1), byte(2)], Align::ONE).unwrap();
    assert_eq!(memory.load(second, 3, Align::ONE), Ok(&[UNINITIALISED, byte(1), byte(2)][..]));
    assert_eq!(memory.load(second.offset(2), 1, Align::of_bytes(2).unwrap()), Ok(&[byte(2)][..]));
    assert_eq!(memory.load(second.offset(1), 1, Align::of::<u16>()), Err(Refusal::Misaligned));
    assert_eq!(memory.load(second.offset(3), 0, Align::ONE), Ok(&[][..]));
}

/// The four types of docs/FORMAT.md.
#[test]
fn layouts_are_those_of_the_page() {
    let word_list = |kind, pointee: &Pointee| {
        let mut list = List::new();
        list.retag(pointer(0, 0, 0), kind, pointee);
        words(&list)[3..].to_vec()
    };
    let plain = Pointee::of::<u32>();
    assert_eq!(word_list(PointerKind::MutableReference, &plain), [0x60000002, 0, 4]);
    let slot = Pointee::sized(Part { size: 4, cells: vec![2..3] });
    assert_eq!(word_list(PointerKind::SharedReference, &slot), [0x40000003, 0, 0x00400004, 0x00020001]);
    let slice = Pointee::slice(3, Part::without_cells(2));
    assert_eq!(word_list(PointerKind::MutableReference, &slice), [0x60000002, 0x40000003, 0x40000002]);
    let tail = Shape::TraitObject(Part::without_cells(4));
    let counted =
        Pointee::new(Metadata::VTable, Shape::Tuple(Part { size: 4, cells: vec![0..2] }, Box::new(tail)));
    assert_eq!(
        word_list(PointerKind::Box, &counted),
        [0x40000004, 0x80000000, 0xc0400004, 0x00000002, 0x80000004]
    );
    assert_eq!(word_list(PointerKind::Raw, &counted), [0]);
}

#[test]
fn layouts_that_do_not_fit_have_no_mask() {
    let mut memory = Memory::new(Width::Bits64);
    let root = memory.allocate(MemoryKind::Heap, 4096, Align::ONE, 4096).unwrap();
    let refusal = |pointee: Pointee| memory.clone().retag(root, PointerKind::SharedReference, &pointee).err();
    let cells = |count: u16| Part { size: 4096, cells: (0..count).map(|at| 2 * at..2 * at + 1).collect() };
    assert_eq!(refusal(Pointee::sized(cells(255))), None);
    assert_eq!(refusal(Pointee::sized(cells(256))), Some(Refusal::WithoutMask));
    let inside = Shape::Tuple(cells(256), Box::new(Shape::Sized(Part::without_cells(0))));
    assert_eq!(refusal(Pointee::new(Metadata::None, inside)), Some(Refusal::WithoutMask));
    assert_eq!(refusal(Pointee::sized(Part::without_cells(u32::MAX))), Some(Refusal::WithoutMask));
    assert_eq!(refusal(Pointee::slice(u32::MAX, Part::without_cells(1))), Some(Refusal::WithoutMask));
    assert_eq!(refusal(Pointee::slice(u32::MAX, Part::without_cells(0))), None);
    assert_eq!(refusal(Pointee::slice(0, Part::without_cells(u32::MAX))), None);
    assert_eq!(refusal(Pointee::sized(Part { size: 4, cells: vec![3..2] })), None);
}

#[test]
fn a_call_protects_until_it_ends() {
    let mut memory = Memory::new(Width::Bits64);
    let root = memory.allocate(MemoryKind::Heap, 1, Align::ONE, 16).unwrap();
    let mut call = memory.new_call();
    let x =
        memory.retag_argument(&mut call, root, PointerKind::MutableReference, &Pointee::of::<u8>()).unwrap();
    assert_eq!(call.entries(), [Entry { allocation: 0, node: 1 }]);
    memory.store(x, &[byte(1)], Align::ONE).unwrap();
    assert_eq!(memory.load(root, 1, Align::ONE), Err(Refusal::ForeignReadOfUnique));
    assert_eq!(memory.deallocate(x, MemoryKind::Heap, 1, Align::ONE), Err(Refusal::StrongProtector));
    assert_eq!(Memory::new(Width::Bits64).end_call(&mut call), Err(Refusal::NeverMade.into()));
    assert_eq!(call.entries().len(), 1);
    memory.end_call(&mut call).unwrap();
    assert!(call.entries().is_empty());
    assert_eq!(memory.load(root, 1, Align::ONE), Ok(&[byte(1)][..]));
    memory.deallocate(root, MemoryKind::Heap, 1, Align::ONE).unwrap();
    assert_eq!(memory.leak(), None);
}

/// While its call lasts, an argument refuses with 26 to 28; afterwards, with 17 to 19.
#[test]
fn an_argument_has_numbers_of_its_own() {
    let mut memory = Memory::new(Width::Bits64);
    let root = memory.allocate(MemoryKind::Heap, 2, Align::ONE, 16).unwrap();
    let mut call = memory.new_call();
    let shared =
        memory.retag_argument(&mut call, root, PointerKind::SharedReference, &Pointee::of::<u8>()).unwrap();
    let beside = Pointer { address: 17, ..shared };
    memory.store(Pointer { address: 17, ..root }, &[byte(1)], Align::ONE).unwrap();
    assert_eq!(memory.load(beside, 1, Align::ONE), Err(Refusal::LocalReadOfProtectedDisabled));
    assert_eq!(memory.store(shared, &[byte(2)], Align::ONE), Err(Refusal::LocalWriteOfProtectedFrozen));
    assert_eq!(memory.store(beside, &[byte(2)], Align::ONE), Err(Refusal::LocalWriteOfProtectedDisabled));
    memory.end_call(&mut call).unwrap();
    assert_eq!(memory.load(beside, 1, Align::ONE), Err(Refusal::LocalReadOfDisabled));
    assert_eq!(memory.store(shared, &[byte(2)], Align::ONE), Err(Refusal::LocalWriteOfFrozen));
    assert_eq!(memory.store(beside, &[byte(2)], Align::ONE), Err(Refusal::LocalWriteOfDisabled));
}

/// A frame that a list leaves open is gone on with in its memory.
#[test]
fn a_frame_outlives_its_list() {
    let root = pointer(32, 1, 0);
    let mut list = List::new();
    list.allocate(MemoryKind::Heap, 1, Align::ONE, 16);
    list.allocate(MemoryKind::Heap, 1, Align::ONE, 32);
    list.new_call(frame(31));
    list.retag_argument(frame(31), root, PointerKind::SharedReference, &Pointee::of::<u8>());
    let mut outcome = list.run();
    assert_eq!(outcome.frame(frame(30)), None);
    let mut call = outcome.frame(frame(31)).unwrap();
    assert_eq!(call.entries(), [Entry { allocation: 1, node: 1 }]);
    assert_eq!(outcome.memory.store(root, &[byte(1)], Align::ONE), Err(Refusal::ForeignWriteOfRead));
    outcome.memory.end_call(&mut call).unwrap();
    outcome.memory.store(root, &[byte(1)], Align::ONE).unwrap();
}

/// The limit of 4,096 words after the fourth is the program's alone.
#[test]
fn a_list_takes_more_words_than_a_run() {
    let root = pointer(16, 0, 0);
    let mut list = List::new();
    list.allocate(MemoryKind::Heap, 1, Align::ONE, 16);
    list.store(root, &vec![UNINITIALISED; 4097], Align::ONE);
    list.store(root, &[byte(1)], Align::ONE);
    let answers = list.run().answers;
    assert_eq!(answers[1..], [Err(Refusal::OutOfBounds.into()), Ok(Given::Nothing)]);
}

#[test]
fn dereference_tests_reach_ahead_and_back() {
    let mut memory = Memory::new(Width::Bits64);
    let root = memory.allocate(MemoryKind::Stack, 4, Align::of::<u32>(), 16).unwrap();
    assert_eq!(memory.dereferenceable(root, 4), Ok(()));
    assert_eq!(memory.dereferenceable(root, 5), Err(Refusal::OutOfBounds));
    assert_eq!(memory.signed_dereferenceable(root.offset(4), -4), Ok(()));
    assert_eq!(memory.signed_dereferenceable(root, -1), Err(Refusal::OutOfBounds));
    assert_eq!(
        memory.dereferenceable(Pointer { address: 16, provenance: None }, 1),
        Err(Refusal::MissingProvenance)
    );
}

#[test]
fn names_that_fit_no_request_were_never_made() {
    let refused = |named| {
        let mut list = List::new();
        list.allocate(MemoryKind::Stack, 1, Align::ONE, 16);
        list.retag(pointer(16, 0, 0), PointerKind::MutableReference, &Pointee::of::<u8>());
        list.load(named, 1, Align::ONE);
        list.run().answers[2].clone()
    };
    assert_eq!(refused(pointer(16, 128, 0)), Err(Refusal::NeverMade.into()));
    assert_eq!(refused(pointer(16, 0, 4096)), Err(Refusal::NeverMade.into()));
    assert_eq!(refused(pointer(16, 0, 0)), Ok(Given::Words(vec![UNINITIALISED])));
    assert_eq!(FrameNumber::new(32), None);
}

#[test]
fn a_list_goes_on_after_a_refusal() {
    let mut list = List::new();
    list.push(&[]);
    list.push(&[0xffff_ffff; 4]);
    list.leak_check();
    let answers = list.run().answers;
    let malformed = Err(Refusal::Malformed.into());
    assert_eq!(answers, [malformed.clone(), malformed, Ok(Given::Nothing)]);
    assert_eq!(List::new().run().answers, []);
}

/// Past one of the stack and one that is dead.
#[test]
fn a_leak_check_names_the_lowest() {
    let mut list = List::new();
    list.allocate(MemoryKind::Stack, 1, Align::ONE, 16);
    for address in [32, 48, 64] {
        list.allocate(MemoryKind::Heap, 1, Align::ONE, address);
    }
    list.deallocate(pointer(32, 1, 0), MemoryKind::Heap, 1, Align::ONE);
    list.leak_check();
    let outcome = list.run();
    let leak = Refused { refusal: Refusal::MemoryLeak, leak: Some(2) };
    assert_eq!(outcome.answers[5], Err(leak));
    assert_eq!(leak.to_string(), "25: memory leak: allocation 2 is live");
    assert_eq!(outcome.memory.leak(), Some(2));
}

/// Buffers of another length are refused, and nothing changes.
#[test]
fn other_lengths_are_not_well_formed() {
    let resized: [fn(&mut Buffers); 5] = [
        |b| b.allocs.truncate(767),
        |b| b.parents.push(0),
        |b| b.protectors.truncate(1023),
        |b| b.words.push(0),
        |b| b.codes.clear(),
    ];
    for resize in resized {
        let mut buffers = Buffers::new();
        resize(&mut buffers);
        let before = buffers.clone();
        assert_eq!(buffers.empty().refusal, 1);
        assert_eq!(buffers.allocate(0, 1, 0, 16).refusal, 1);
        assert_eq!(buffers.leak_check().refusal, 1);
        let (mut frames, mut answers) = ([0; 2080], [7; 5]);
        assert_eq!(buffers.run_list(&mut frames, &[], &[], &mut answers).refusal, 1);
        assert_eq!(buffers, before);
    }
}

#[test]
fn whatever_the_buffers_hold_new_empties_them() {
    let mut buffers = Buffers::new();
    buffers.codes.fill(0xff);
    buffers.allocs.fill(u64::MAX);
    assert_eq!(buffers.leak_check().refusal, 1);
    assert_eq!(buffers.empty(), Reply { refusal: 0, gives: 0, first: 0, second: 0 });
    assert_eq!(buffers, Buffers::new());
}

#[test]
fn widths_have_their_numbers() {
    let numbers = Width::ALL.map(|width| (width.bits(), width.most_address(), width.pointer_bytes()));
    assert_eq!(numbers, [(16, 0xffff, 2), (32, 0xffff_ffff, 4), (64, u64::MAX, 8)]);
    assert_eq!((Width::of_bits(32), Width::of_bits(24)), (Some(Width::Bits32), None));
    let high = pointer(0xfffe, 0, 0);
    assert_eq!(high.offset(3).address, 0x10001);
    assert_eq!(high.offset_at(Width::Bits16, 3).address, 1);
    assert_eq!(pointer(1, 0, 0).offset_at(Width::Bits32, -2).address, 0xffff_ffff);
}

/// At each width: the last address, the last end and the last position, and those behind them.
#[test]
fn a_memory_ends_at_its_width() {
    for width in Width::ALL {
        let mut memory = Memory::new(width);
        assert_eq!(memory.width(), width);
        let most = width.most_address();
        let allocate = |memory: &mut Memory, size, address| {
            memory.allocate(MemoryKind::Heap, size, Align::ONE, address).map(|made| made.address)
        };
        assert_eq!(allocate(&mut memory, 3, most - 2), Err(Refusal::FailsPick));
        assert_eq!(allocate(&mut memory, u64::MAX, most), Err(Refusal::FailsPick));
        assert_eq!(allocate(&mut memory, 2, most - 2), Ok(most - 2));
        assert_eq!(allocate(&mut memory, 0, most), Ok(most));
        let root = pointer(most - 2, 0, 0);
        for position in 0..8 {
            let word = 0xc000_0000 | position << 27;
            let expected =
                if (position as u64) < width.pointer_bytes() { Ok(()) } else { Err(Refusal::Malformed) };
            assert_eq!(
                memory.store(root, &[UNINITIALISED, word], Align::ONE),
                expected,
                "{width:?} {position}"
            );
        }
        let last = Pointer { address: most, ..root };
        assert_eq!(memory.load(last, 1, Align::ONE).err(), Some(Refusal::OutOfBounds));
        assert_eq!(memory.dereferenceable(last, 0), Ok(()));
        assert_eq!(memory.signed_dereferenceable(last, -2), Ok(()));
        assert_eq!(memory.signed_dereferenceable(pointer(1, 0, 0), -2), Err(Refusal::OutOfBounds));
        if width == Width::Bits64 {
            continue;
        }
        let above = Pointer { address: most + 1, ..root };
        let bare = Pointer { provenance: None, ..above };
        let pointee = Pointee::of::<()>();
        for place in [above, bare] {
            assert_eq!(memory.load(place, 0, Align::ONE).err(), Some(Refusal::Malformed));
            assert_eq!(memory.store(place, &[], Align::ONE), Err(Refusal::Malformed));
            assert_eq!(memory.dereferenceable(place, 0), Err(Refusal::Malformed));
            assert_eq!(memory.signed_dereferenceable(place, 0), Err(Refusal::Malformed));
            assert_eq!(memory.deallocate(place, MemoryKind::Heap, 2, Align::ONE), Err(Refusal::Malformed));
            for kind in [PointerKind::SharedReference, PointerKind::Raw] {
                assert_eq!(memory.retag(place, kind, &pointee), Err(Refusal::Malformed));
            }
        }
        assert_eq!(allocate(&mut memory, 0, most + 1), Err(Refusal::Malformed));
    }
}

/// Only three widths are lent, and what is in the memory fits them, dead allocations too.
#[test]
fn what_does_not_fit_its_width_is_not_well_formed() {
    for bits in [0, 8, 15, 17, 24, 33, 63, 65, 128, 1 << 32, u64::MAX] {
        let mut buffers = Buffers { width: bits, ..Buffers::new() };
        let before = buffers.clone();
        assert_eq!(buffers.empty().refusal, 1, "{bits}");
        assert_eq!(buffers.allocate(0, 1, 0, 16).refusal, 1, "{bits}");
        assert_eq!(buffers.leak_check().refusal, 1, "{bits}");
        assert_eq!(buffers, before);
    }
    let lent_with = |buffers: &Buffers, width: Width| {
        Buffers { width: width.bits(), ..buffers.clone() }.leak_check().refusal
    };
    let refusals = |buffers: &Buffers| Width::ALL.map(|width| lent_with(buffers, width));
    let root = |address| raw::Pointer { address, provenance: 1, allocation: 0, node: 0 };
    for (address, expected) in
        [(0xfffe, [0, 0, 0]), (0xffff, [1, 0, 0]), (0xffff_fffe, [1, 0, 0]), (0xffff_ffff, [1, 1, 0])]
    {
        let mut buffers = Buffers::new();
        assert_eq!(buffers.allocate(0, 1, 0, address).refusal, 0);
        assert_eq!(refusals(&buffers), expected, "{address:x}");
        assert_eq!(buffers.deallocate(root(address), 0, 1, 0).refusal, 0);
        assert_eq!(refusals(&buffers), expected, "{address:x}, dead");
    }
    for (position, expected) in
        [(1, [0, 0, 0]), (2, [1, 0, 0]), (3, [1, 0, 0]), (4, [1, 1, 0]), (7, [1, 1, 0])]
    {
        let mut buffers = Buffers::new();
        assert_eq!(buffers.allocate(0, 1, 0, 16).refusal, 0);
        assert_eq!(buffers.store(root(16), &[0xc000_0000 | position << 27], 0).refusal, 0);
        assert_eq!(refusals(&buffers), expected, "position {position}");
        assert_eq!(buffers.deallocate(root(16), 0, 1, 0).refusal, 0);
        assert_eq!(refusals(&buffers), expected, "position {position}, dead");
    }
}

/// A list starts at 64 bits. Behind an emptying numbers start again, frames are closed, and the width is kept
/// with the memory that is left.
#[test]
fn a_list_empties_the_memory() {
    let high = pointer(0x1_0000, 0, 0);
    for (extra, width) in Width::ALL.into_iter().enumerate() {
        let mut list = List::new();
        list.allocate(MemoryKind::Heap, 1, Align::ONE, 0x1_0000);
        list.new_call(frame(3));
        list.empty(width);
        assert_eq!(words(&list)[8..], [0xf000_0000 | extra as u32, 0, 0, 0]);
        list.end_call(frame(3));
        list.load(high, 0, Align::ONE);
        list.allocate(MemoryKind::Stack, 1, Align::ONE, 16);
        list.leak_check();
        let mut outcome = list.run();
        let gone = if width == Width::Bits16 { Refusal::Malformed } else { Refusal::NeverMade };
        let made = |allocation| Ok(Given::Pointer(Provenance { allocation, node: 0 }));
        let nothing = || Ok(Given::Nothing);
        let expected = [
            made(0),
            nothing(),
            nothing(),
            Err(Refusal::Malformed.into()),
            Err(gone.into()),
            made(0),
            nothing(),
        ];
        assert_eq!(outcome.answers, expected);
        assert_eq!((outcome.memory.width(), outcome.frame(frame(3))), (width, None));
        assert_eq!(outcome.memory.to_string(), "a 0 live stack 16 1 0\nd 0 00000000\nn 0 0 - no 3\n");
        let beyond = outcome.memory.allocate(MemoryKind::Heap, 1, Align::ONE, 0xffff);
        assert_eq!(beyond.err(), (width == Width::Bits16).then_some(Refusal::FailsPick));
    }
}

/// An emptying with another field set, or of no width, is refused, and nothing is forgotten.
#[test]
fn a_malformed_emptying_changes_nothing() {
    for request in
        [[0xf000_0003, 0, 0, 0], [0xf000_0007, 0, 0, 0], [0xf000_0000, 0, 0, 1], [0xf000_0100, 0, 0, 0]]
    {
        let mut list = List::new();
        list.allocate(MemoryKind::Heap, 1, Align::ONE, 16);
        list.push(&request);
        let outcome = list.run();
        assert_eq!(outcome.answers[1], Err(Refusal::Malformed.into()));
        assert_eq!((outcome.memory.width(), outcome.memory.leak()), (Width::Bits64, Some(0)));
    }
}

/// At the boundary a flag is 0 or 1, and a pointer without provenance names nothing.
#[test]
fn other_flags_are_malformed() {
    let mut buffers = Buffers::new();
    assert_eq!(buffers.allocate(0, 1, 0, 16).refusal, 0);
    let root = raw::Pointer { address: 16, provenance: 1, allocation: 0, node: 0 };
    let load = |pointer| buffers.clone().load(pointer, 1, 0).refusal;
    assert_eq!(load(root), 0);
    assert_eq!(load(raw::Pointer { provenance: 2, ..root }), 2);
    assert_eq!(load(raw::Pointer { provenance: 255, ..root }), 2);
    assert_eq!(load(raw::Pointer { provenance: 0, ..root }), 7);
    assert_eq!(load(raw::Pointer { provenance: 0, node: 1, ..root }), 2);
    assert_eq!(load(raw::Pointer { provenance: 0, allocation: 1, ..root }), 2);
    let plain = RetagSettings { extra: 0, function_entry: 0, unpin: 1, freeze: 1 };
    let retag = |settings| {
        let mut entries = [Entry::default(); 64];
        buffers.clone().retag(&mut entries, 0, &[0, 1], root, settings).reply.refusal
    };
    assert_eq!(retag(plain), 0);
    assert_eq!(retag(RetagSettings { function_entry: 2, ..plain }), 2);
    assert_eq!(retag(RetagSettings { unpin: 3, ..plain }), 2);
    assert_eq!(retag(RetagSettings { freeze: 128, ..plain }), 2);
}

/// The sizes and offsets that C gives the same structs: tests/interface asserts these numbers of the header.
#[test]
fn structs_have_the_layout_of_c() {
    assert_eq!(
        (size_of::<raw::Pointer>(), offset_of!(raw::Pointer, allocation), offset_of!(raw::Pointer, node)),
        (24, 12, 16)
    );
    assert_eq!((size_of::<Entry>(), offset_of!(Entry, node)), (8, 4));
    assert_eq!((size_of::<RetagSettings>(), offset_of!(RetagSettings, freeze)), (8, 6));
    assert_eq!((size_of::<Reply>(), offset_of!(Reply, first), offset_of!(Reply, second)), (24, 8, 16));
    assert_eq!((size_of::<RetagReply>(), offset_of!(RetagReply, count)), (32, 24));
    assert_eq!((size_of::<ListReply>(), offset_of!(ListReply, whole)), (24, 1));
    assert_eq!((offset_of!(ListReply, at), offset_of!(ListReply, width)), (8, 16));
}
