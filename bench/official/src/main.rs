// Times the official crate over pattern bytes in memory: `official MIB`, or `official BYTES TURNS` for the same few bytes again and
// again. It writes the hash to standard output and the microseconds to standard error, as the crate `benchmarks` does.
use std::hint::black_box;
use std::time::Instant;

const USAGE: &str = "official MIB | official BYTES TURNS";

fn main() {
    let words: Vec<String> = std::env::args().skip(1).collect();
    let words: Vec<&str> = words.iter().map(String::as_str).collect();
    let number = |word: &str| word.parse::<usize>().expect(USAGE);
    match words[..] {
        [mib] => hash_pattern(number(mib) << 20, 1),
        [bytes, turns] => hash_pattern(number(bytes), number(turns)),
        _ => panic!("{USAGE}"),
    }
}

fn hash_pattern(len: usize, turns: usize) {
    let bytes: Vec<u8> = (0..len).map(|i| (i % 251) as u8).collect();
    let start = Instant::now();
    let mut hash = blake3::hash(&bytes);
    for _ in 1..turns {
        hash = blake3::hash(black_box(&bytes));
    }
    report(start, hash);
}

fn report(start: Instant, hash: blake3::Hash) {
    let micros = start.elapsed().as_micros();
    println!("{}", hash.to_hex());
    eprintln!("{micros}");
}
