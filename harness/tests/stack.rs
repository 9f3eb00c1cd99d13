//! The stack that a call takes is no more than include/sarwymp.h states.
#![cfg(all(target_os = "linux", target_arch = "x86_64"))]

use harness::encode::encode;
use harness::finding::{FIELDTYPES, GROUP, LOOKUP, PGN};
use harness::generate::{Generator, sample_of_size};
use harness::library;
use harness::reader::LIMIT;
use harness::text::to_pack;
use harness::value::{Lookup, Pack};
use std::alloc::{Layout, alloc, dealloc};
use std::ffi::c_void;
use std::ptr::null_mut;

const HEADER: &str = include_str!("../../include/sarwymp.h");

/// What the header states, by the name of its constant.
fn stated(name: &str) -> usize {
    let define = format!("#define {name} ");
    let (_, rest) = HEADER.split_once(&define).unwrap_or_else(|| panic!("no {define}"));
    rest.split_whitespace().next().unwrap().parse().unwrap()
}

/// Packs that lead every way: many findings, none, more findings and lookups than the library keeps on its stack, ones that
/// are refused late.
fn packs() -> Vec<Vec<u8>> {
    let mut generator = Generator::new(9);
    let lookup = |i: usize| Lookup { name: format!("L{i:06}").into_bytes(), ..Lookup::default() };
    let lookups = Pack { lookups: (0..4_200).map(lookup).collect(), ..Pack::default() };
    let fields: String = (0..2_000).map(|i| format!("field f{i} F NUMBER bits 1 match {i} lookup L spn 7\n")).collect();
    let one_pgn = to_pack(&format!("type NUMBER prints\nlookup L pair 8\ntree j1939\npgn 65280 a Fast\n{fields}"));
    let mut packs: Vec<Vec<u8>> =
        [0, 20, 200, 400].map(|slip| encode(&generator.pack_of_size(LIMIT, slip)).bytes).into();
    packs.extend([sample_of_size(LIMIT), lookups, one_pgn.unwrap()].map(|pack| encode(&pack).bytes));
    packs.extend((0..500).map(|_| encode(&generator.pack(true)).bytes));
    let cut = packs[0][..LIMIT - 1].to_vec();
    packs.push(cut);
    assert!(packs.iter().all(|pack| pack.len() <= LIMIT));
    packs
}

/// Lent buffers, long enough for any pack.
struct Lent {
    work: Vec<u32>,
    findings: Vec<u32>,
    text: Vec<u8>,
    readings: [Vec<u64>; 3],
    visits: Vec<u32>,
}

impl Lent {
    fn new() -> Self {
        Lent {
            work: vec![0; LIMIT],
            findings: vec![0; 4 * LIMIT],
            text: vec![0; 2 * LIMIT],
            readings: [0, 2, u64::MAX].map(|reading| vec![reading; 1000]),
            visits: vec![0; 1000],
        }
    }
}

type Call = fn(&[u8], &mut Lent);

/// Each call on a pack, without room on the heap or much on the stack of its own.
const CALLS: [(&str, Call); 5] = [
    ("load", |pack, lent| {
        library::load(pack, &mut lent.work);
    }),
    ("check", |pack, lent| {
        library::check(pack, &mut lent.work, &mut lent.findings);
        library::check(pack, &mut lent.work, &mut []);
    }),
    ("place_text", |pack, lent| {
        for place in [FIELDTYPES, PGN, LOOKUP, GROUP] {
            for item in [0, 1, 59904, 127488] {
                library::place_text(pack, &mut lent.work, place, 0, item, &mut lent.text);
            }
        }
    }),
    ("walk", |pack, lent| {
        for tree in 0..3 {
            for item in 0..3 {
                for readings in &lent.readings {
                    library::walk(pack, &mut lent.work, tree, item, readings, &mut lent.visits);
                }
            }
        }
    }),
    ("held", |pack, lent| {
        for tree in 0..3 {
            for item in 0..3 {
                library::held(pack, &mut lent.work, tree, item);
            }
        }
    }),
];

#[repr(C, align(16))]
struct Attributes([u8; 64]);

unsafe extern "C" {
    fn pthread_attr_init(attributes: *mut Attributes) -> i32;
    fn pthread_attr_setstack(attributes: *mut Attributes, stack: *mut c_void, size: usize) -> i32;
    fn pthread_create(
        thread: *mut usize,
        attributes: *const Attributes,
        start: extern "C" fn(*mut c_void) -> *mut c_void,
        argument: *mut c_void,
    ) -> i32;
    fn pthread_join(thread: usize, answer: *mut *mut c_void) -> i32;
}

extern "C" fn start(run: *mut c_void) -> *mut c_void {
    // SAFETY: `used` passes this, and waits for the thread.
    let run = unsafe { &mut *run.cast::<&mut (dyn FnMut() + Send)>() };
    run();
    null_mut()
}

const PATTERN: u8 = 0xa5;

/// How many bytes of its stack a thread that runs this has changed: down to the lowest one.
fn used(mut run: &mut (dyn FnMut() + Send)) -> usize {
    const SIZE: usize = 1 << 18;
    let layout = Layout::from_size_align(SIZE, 4096).unwrap();
    // SAFETY: the memory is live and as long as said until the thread has ended; the attributes are larger than the C type.
    unsafe {
        let stack = alloc(layout);
        assert!(!stack.is_null());
        stack.write_bytes(PATTERN, SIZE);
        let mut attributes = Attributes([0; 64]);
        let mut thread = 0;
        assert_eq!(pthread_attr_init(&mut attributes), 0);
        assert_eq!(pthread_attr_setstack(&mut attributes, stack.cast(), SIZE), 0);
        let argument = (&raw mut run).cast();
        assert_eq!(pthread_create(&mut thread, &attributes, start, argument), 0);
        assert_eq!(pthread_join(thread, null_mut()), 0);
        let untouched = std::slice::from_raw_parts(stack, SIZE).iter().take_while(|byte| **byte == PATTERN).count();
        dealloc(stack, layout);
        SIZE - untouched
    }
}

#[test]
fn no_call_takes_more_than_is_stated() {
    if !library::PRESENT {
        return println!("no_call_takes_more_than_is_stated: skipped, no library is linked");
    }
    let packs = packs();
    let mut lent = Lent::new();
    // what a thread has there of its own
    let own = used(&mut || ());
    for (name, call) in CALLS {
        let most = packs.iter().map(|pack| used(&mut || call(pack, &mut lent)) - own).max().unwrap();
        println!("{name}: {most} bytes");
        let stated = stated(if name == "check" { "SARWYMP_STACK_CHECK" } else { "SARWYMP_STACK_OTHER" });
        assert!(most <= stated, "{name} takes {most} bytes of stack, {stated} are stated");
        assert!(most > 500, "{name}: {most} bytes were seen, which cannot be all");
    }
}

/// The measure sees what a function takes.
#[test]
fn the_measure_sees_an_array() {
    let own = used(&mut || ());
    let with = used(&mut || {
        std::hint::black_box([1u8; 50_000]);
    });
    assert!((49_000..55_000).contains(&(with - own)), "{with} {own}");
}

#[test]
fn a_thread_of_the_stated_size_has_room() {
    if !library::PRESENT {
        return println!("a_thread_of_the_stated_size_has_room: skipped, no library is linked");
    }
    let packs = packs();
    let lent = &mut Lent::new();
    std::thread::scope(|scope| {
        let thread = std::thread::Builder::new().stack_size(stated("SARWYMP_STACK_THREAD"));
        let all = || packs.iter().for_each(|pack| CALLS.iter().for_each(|(_, call)| call(pack, lent)));
        thread.spawn_scoped(scope, all).unwrap().join().unwrap();
    });
}

/// With buffers of their own, calls on one pack at once answer as one after the other.
#[test]
fn threads_do_not_meet() {
    let mut generator = Generator::new(10);
    let packs: Vec<Vec<u8>> = [0, 100].map(|slip| encode(&generator.pack_of_size(1 << 14, slip)).bytes).into();
    let answers = || {
        let mut lent = Lent::new();
        packs.iter().for_each(|pack| CALLS.iter().for_each(|(_, call)| call(pack, &mut lent)));
        let one = |pack: &Vec<u8>| {
            let check = library::check(pack, &mut lent.work, &mut lent.findings);
            (check, lent.work[..2000].to_vec(), lent.findings[..2000].to_vec())
        };
        packs.iter().map(one).collect::<Vec<_>>()
    };
    let alone = answers();
    std::thread::scope(|scope| {
        let threads: Vec<_> = (0..4).map(|_| scope.spawn(|| (0..20).all(|_| answers() == alone))).collect();
        assert!(threads.into_iter().all(|thread| thread.join().unwrap()));
    });
}
