//! Every call ends well on a thread whose whole stack is 128 KB: its arrays do not grow with the files.

use bushelvane::{List, batch, check, join, limited_join, list, route, show};

/// Two junctions and one road between them, of 3 seconds and 4 units.
const NETWORK: &[u8] = b"TRN\x01\0\0\x02\0\x01\0\0\0\x07\0\0\0\0\0\x01\0\x03\0\x04\0";
const LABELS: &[u8] =
    b"TLB\x01\0\0\x02\0\x01\0\0\0\x07\0\0\0\x01\0\xff\xff\x01\0\x03\0\0\0\x04\0\0\0";

fn on_small_stack(call: fn() -> u32) -> u32 {
    let thread = std::thread::Builder::new().stack_size(128 * 1_024);
    let running = thread.spawn(call).expect("a thread can be made");
    running.join().expect("the call does not panic")
}

fn short<'a>() -> List<'a> {
    List {
        times: &[2, 1],
        energies: &[1, 2],
    }
}

#[test]
fn each_call_fits() {
    let calls: [fn() -> u32; 7] = [
        || check(NETWORK, LABELS),
        || batch(NETWORK, LABELS, &[0, 1, 4], &mut [0; 3]),
        || route(NETWORK, LABELS, 0, 1, 4, &mut [0; 2]).number,
        || list(NETWORK, LABELS, 0, 1, &mut [0; 1], &mut [0; 1]).number,
        || join(short(), short(), &mut [0; 4], &mut [0; 4]).number,
        || limited_join(short(), short(), 9).number,
        || u32::from(show(LABELS, 0, 1).is_empty()),
    ];
    assert_eq!(calls.map(on_small_stack), [0; 7]);
}
