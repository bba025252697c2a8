//! What a stream allocates, counted.
use shofrakin::{IvectorInfo, IvectorStream, Room};
use std::alloc::{GlobalAlloc, Layout, System};
use std::cell::Cell;
use std::path::Path;

thread_local! {
    static ALLOCATIONS: Cell<usize> = const { Cell::new(0) };
}

struct Counting;

#[global_allocator]
static COUNTING: Counting = Counting;

// SAFETY: the system's, counted.
unsafe impl GlobalAlloc for Counting {
    unsafe fn alloc(&self, layout: Layout) -> *mut u8 {
        ALLOCATIONS.set(ALLOCATIONS.get() + 1);
        System.alloc(layout)
    }

    unsafe fn alloc_zeroed(&self, layout: Layout) -> *mut u8 {
        ALLOCATIONS.set(ALLOCATIONS.get() + 1);
        System.alloc_zeroed(layout)
    }

    unsafe fn dealloc(&self, start: *mut u8, layout: Layout) {
        System.dealloc(start, layout)
    }
}

fn info() -> IvectorInfo {
    IvectorInfo::open(Path::new(concat!(env!("CARGO_MANIFEST_DIR"), "/../../examples/model"))).unwrap()
}

#[test]
fn a_stream_allocates_its_room_and_nothing_afterwards() {
    let info = info();
    let changes: Vec<(usize, f32)> = (0..1000).map(|t| (t, 0.5)).collect();
    let (mut vector, mut block) = ([0.0; 3], [0; 16]);
    let mut stream = IvectorStream::new(&info, Room { frames: 1100, rows: None, waiting: 2000 }).unwrap();
    let before = ALLOCATIONS.get();
    for t in 0..1000 {
        stream.push_frame(&[7.0, t as f32, 0.5, -0.25]).unwrap();
    }
    stream.update_frame_weights(&changes[..300]).unwrap();
    stream.update_frame_weights_in_parts(&changes).unwrap();
    stream.update_frame_weights_in_parts(&changes).unwrap_err();
    stream.get_frame(900, &mut vector).unwrap();
    stream.set_cmn_window(50).unwrap();
    stream.forget_before(901).unwrap();
    block[0] = 1;
    stream.registers_step(&mut block, &[1.0; 4], &mut vector).unwrap();
    stream.push_frame(&[1.0]).unwrap_err();
    stream.set_input_finished().unwrap();
    stream.get_frame(stream.num_frames_ready() - 2, &mut vector).unwrap();
    assert_eq!(ALLOCATIONS.get(), before);
    // which the count would show
    drop(vec![0u8; 1]);
    assert_eq!(ALLOCATIONS.get(), before + 1);
}

/// Whatever the room is, it is had or refused.
#[test]
fn rooms_of_any_size() {
    let info = info();
    for frames in [0, 1, 1000, 1_000_000_000, 1_000_000_001, usize::MAX / 4, usize::MAX] {
        for rows in [None, Some(0), Some(1), Some(2), Some(2_000_000_000), Some(2_000_000_001), Some(usize::MAX)] {
            for waiting in [0, 1, 1 << 40, 1 << 60, usize::MAX / 8, usize::MAX / 8 + 1, usize::MAX] {
                let room = Room { frames, rows, waiting };
                let limits = (1..=1_000_000_000).contains(&frames) && (2..=2_000_000_000).contains(&room.rows_for(&info));
                let (made, bytes) = (IvectorStream::new(&info, room), room.memory(&info));
                assert!(limits || bytes.is_err(), "{room:?}");
                assert!(bytes.is_ok() || made.is_err(), "{room:?}");
                assert!(made.is_err() || bytes.is_ok_and(|n| n <= isize::MAX as usize), "{room:?}");
                for e in made.err().into_iter().chain(bytes.err()) {
                    let says = if limits { "no memory holds a room of that size" } else { "a lent room is too short" };
                    assert_eq!(e.to_string(), format!("refused, 8: {says}"), "{room:?}");
                }
            }
        }
    }
}
