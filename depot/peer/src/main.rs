//! The usbredir peer of the depot.
//!
//!     peer serve SOCKET LOG START     connects to QEMU's socket and obeys the orders on standard input, one a line:
//!         load FILE                                       a medium
//!         plug NUMBER VENDOR PRODUCT RELEASE BLOCKS..     a newly made device over the medium (decimal; then hex), and the size of
//!                                                         each of its units
//!         unplug                                          the device is gone, the medium stays
//!         switch open|closed UNIT                         turns the unit's switch: of the device, or of the next one before it is
//!                                                         plugged in
//!         switch open|closed UNIT after PACKETS           turns it once the device has taken so many more packets outward
//!         save FILE                                       the medium as it stands
//!     peer play                       plays the recording on standard input, and prints its answers
//!
//! An order is answered with one line on standard output: `done`, or `failed` and why.

mod bus;
mod capi;
mod collector;
mod log;
mod medium;
mod play;
mod redir;
mod serve;
mod switch;
mod unit;

#[cfg(feature = "wrong")]
use wrong as _;

fn main() {
    let words: Vec<String> = std::env::args().skip(1).collect();
    let words: Vec<&str> = words.iter().map(String::as_str).collect();
    let outcome = match words[..] {
        ["serve", socket, path, start] => serve::serve(socket, path, start),
        ["play"] => play::play(),
        _ => {
            eprintln!("peer serve SOCKET LOG START | peer play");
            std::process::exit(2);
        }
    };
    if let Err(fault) = outcome {
        eprintln!("peer: {fault}");
        std::process::exit(1);
    }
}
