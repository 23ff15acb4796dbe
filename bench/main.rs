//! Works a text with the proved translator or with the ordinary one, as often as is asked.
//!   bench ours|plain|check FILE TIMES TOLERANCE
mod plain;

/// How many blocks moved and how many were declined, and the sums of what was told; as in crates/bench_lib.
#[repr(C)]
#[derive(Default, Debug, PartialEq)]
pub struct Totals {
    moves: u64,
    declines: u64,
    targets: i64,
    spreads: u64,
    faults: u64,
}

unsafe extern "C" {
    fn bench_work(text: *const u8, len: usize, tolerance: u64, totals: *mut Totals) -> bool;
}

fn ours(text: &[u8], tolerance: u64, totals: &mut Totals) {
    // The text and the totals outlive the call, and the library keeps neither.
    let done = unsafe { bench_work(text.as_ptr(), text.len(), tolerance, totals) };
    assert!(done, "tolerance out of range");
}

fn times(n: usize, text: &[u8], tolerance: u64, work: fn(&[u8], u64, &mut Totals)) -> Totals {
    let mut totals = Totals::default();
    for _ in 0..n {
        work(text, tolerance, &mut totals);
    }
    totals
}

/// Each line as a text of its own behind those before it would be slow; so the whole text first, then each line alone.
fn check(text: &[u8], tolerance: u64) {
    for part in std::iter::once(text).chain(text.split(|&b| b == b'\n')) {
        if part.is_empty() {
            continue;
        }
        let (a, b) = (times(1, part, tolerance, ours), times(1, part, tolerance, plain::plain_work));
        assert!(a == b, "{:?}\nours  {a:?}\nplain {b:?}", String::from_utf8_lossy(&part[..part.len().min(200)]));
    }
}

fn main() {
    let args: Vec<String> = std::env::args().collect();
    let [_, which, file, count, tolerance] = &args[..] else {
        panic!("bench ours|plain|check FILE TIMES TOLERANCE");
    };
    let text = std::fs::read(file).expect("the file can be read");
    let count = count.parse().expect("a number of times");
    let tolerance = tolerance.parse().expect("a tolerance");
    match which.as_str() {
        "ours" => println!("{:?}", times(count, &text, tolerance, ours)),
        "plain" => println!("{:?}", times(count, &text, tolerance, plain::plain_work)),
        _ => {
            check(&text, tolerance);
            println!("same {:?}", times(1, &text, tolerance, ours));
        }
    }
}
