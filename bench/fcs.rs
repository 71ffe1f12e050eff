//! The register of the check sequence, of 16 bits and of 32: the proved `pppfcs16` and `pppfcs32`, each against a plain Rust table loop,
//! in one run. First both are held to the same answers, at every length; then each is timed, in turns, best of nine.
//! With the argument `compare` the timing is left out (for callgrind, where both have had the same octets).

use std::hint::black_box;
use std::time::Instant;

#[link(name = "kutarehopa", kind = "static")]
extern "C" {
    // include/kutarehopa.h, over crates/fcs/src/lib.rt: a slice is a pointer and a length
    fn pppfcs16(start: u16, octets: *const u8, length: usize) -> u16;
    fn pppfcs32(start: u32, octets: *const u8, length: usize) -> u32;
}

/// A check of one width: the proved register and the plain one.
macro_rules! check {
    ($width:ident, $pppfcs:ident, $polynomial:expr, $digits:expr) => {
        mod $width {
            use super::*;

            pub fn proved(start: $width, octets: &[u8]) -> $width {
                unsafe { $pppfcs(start, octets.as_ptr(), octets.len()) }
            }

            static TABLE: [$width; 256] = {
                let mut table = [0; 256];
                let mut i = 0;
                while i < 256 {
                    let mut entry = i as $width;
                    let mut bit = 0;
                    while bit < 8 {
                        entry = if entry & 1 == 1 {
                            entry >> 1 ^ $polynomial
                        } else {
                            entry >> 1
                        };
                        bit += 1;
                    }
                    table[i] = entry;
                    i += 1;
                }
                table
            };

            #[inline(never)]
            pub fn plain(start: $width, octets: &[u8]) -> $width {
                octets.iter().fold(start, |r, &octet| {
                    r >> 8 ^ TABLE[usize::from(r as u8 ^ octet)]
                })
            }

            pub fn compare() {
                let octets = noise(4096);
                for length in 0..=2053 {
                    let part = &octets[length % 97..][..length];
                    for start in [$width::MAX, 0, (length as $width).wrapping_mul($polynomial)] {
                        assert_eq!(
                            proved(start, part),
                            plain(start, part),
                            "length {length}, start {start:X}"
                        );
                    }
                }
                assert_eq!(
                    plain($width::MAX, b"123456789"),
                    $digits,
                    "RFC 1662's check of 31 .. 39"
                );
            }

            /// Nanoseconds a call.
            fn timed(register: fn($width, &[u8]) -> $width, octets: &[u8], calls: usize) -> f64 {
                let begun = Instant::now();
                let mut r = $width::MAX;
                for _ in 0..calls {
                    r = register(r, black_box(octets));
                }
                black_box(r);
                begun.elapsed().as_nanos() as f64 / calls as f64
            }

            pub fn time(lengths: &[usize]) {
                println!(
                    "{:>7}  {:>22}  {:>22}  {:>5}",
                    "octets", "proved, octets/s", "plain Rust, octets/s", "ratio"
                );
                for &length in lengths {
                    let octets = noise(length);
                    let calls = 40_000_000 / length.max(6);
                    let (mut a, mut b) = (f64::MAX, f64::MAX);
                    for _ in 0..9 {
                        a = a.min(timed(proved, &octets, calls));
                        b = b.min(timed(plain, &octets, calls));
                    }
                    println!(
                        "{length:>7}  {:>20.0} M  {:>20.0} M  {:>5.2}",
                        1e3 * length as f64 / a,
                        1e3 * length as f64 / b,
                        a / b
                    );
                }
            }
        }
    };
}

check!(u16, pppfcs16, 0x8408, 0x6f91);
check!(u32, pppfcs32, 0xedb8_8320, 0x340b_c6d9);

/// Octets that look like noise, the same in every run (xorshift).
fn noise(length: usize) -> Vec<u8> {
    let mut x = 0x9e37_79b9_7f4a_7c15u64;
    (0..length)
        .map(|_| {
            x ^= x << 13;
            x ^= x >> 7;
            x ^= x << 17;
            (x >> 32) as u8
        })
        .collect()
}

fn main() {
    u16::compare();
    u32::compare();
    if std::env::args().any(|word| word == "compare") {
        return;
    }
    println!("16 bits");
    u16::time(&[2050, 1402, 42, 6]);
    println!("32 bits");
    u32::time(&[
        2050, 2048, 1402, 1400, 576, 257, 256, 101, 100, 64, 43, 42, 41, 40, 6, 1,
    ]);
}
