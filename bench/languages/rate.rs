//! What a message and a token cost in Rust under a table of one key: nanoseconds of each.
//!
//! usage: rate MESSAGE TOKEN

use std::time::Instant;

const CALLS: u32 = 100_000;
const TURNS: u32 = 7;

/// The fastest of some turns, for one call.
fn fastest(mut call: impl FnMut() -> bool) -> f64 {
    let mut least = f64::INFINITY;
    for _ in 0..TURNS {
        let start = Instant::now();
        for _ in 0..CALLS {
            assert!(call(), "a call is refused");
        }
        least = least.min(start.elapsed().as_nanos() as f64 / f64::from(CALLS));
    }
    least
}

fn main() {
    let texts: Vec<Vec<u8>> = std::env::args().skip(1).map(|name| std::fs::read(name).expect("a file")).collect();
    let keys = [0xa2, 1, 4, 0x20, 0x44, b'J', b'e', b'f', b'e'];
    let mut block = cose::TableBlock::new();
    let table = cose::KeyTable::read(&mut block, &keys).expect("a key");
    let policy = cose::Policy { now: 1_444_064_943, leeway: 60, audience: Some("coap://light.example.com") };
    let options = cose::Options::default();
    let message = fastest(|| matches!(table.verify(&options, &texts[0]), Ok(cose::Verdict::Authentic { .. })));
    let token = fastest(|| table.verify_cwt(&[], &policy, &texts[1]).is_ok());
    println!("{message:.0} {token:.0}");
}
