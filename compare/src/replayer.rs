//! The recorded answers against the library, with nothing else at hand.
// The modules are the driver's, and this program needs only a part of them.
#![allow(dead_code)]
mod port;
mod replay;
mod tally;
mod words;

fn main() {
    let (mut passed, mut failed) = (0, 0);
    for file in std::env::args().skip(1) {
        let text = std::fs::read_to_string(&file).unwrap_or_else(|e| panic!("{file}: {e}"));
        let tally = replay::replay(&port::Native::new, &port::NativeIds::new, &text, 4096);
        println!("{file}: {} answers compared, {} failed", tally.compared, tally.failed);
        tally.failures.iter().for_each(|failure| println!("    {failure}"));
        match tally.failed == 0 && tally.compared > 0 {
            true => passed += 1,
            false => failed += 1,
        }
    }
    println!("{passed} passed, {failed} failed");
    std::process::exit((failed > 0) as i32);
}
