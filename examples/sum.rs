//! A b3sum in Rust, by the proved library libb3.
//!
//!     rustc -O sum.rs -C link-args="$(pkg-config --libs b3)"

mod bindings;

use bindings::{Address, Hasher};
use std::ffi::OsStr;
use std::fs::File;
use std::io::{self, Read, Write};
use std::os::unix::ffi::OsStrExt;
use std::process::ExitCode;

fn hash_of_file(name: &OsStr) -> io::Result<Address> {
    let mut file = File::open(name)?;
    let mut hasher = Hasher::new();
    let mut piece = vec![0; 1 << 16];
    loop {
        match file.read(&mut piece)? {
            0 => return Ok(hasher.finalize()),
            len => hasher.update(&piece[..len]),
        }
    }
}

fn main() -> ExitCode {
    let mut status = ExitCode::SUCCESS;
    for name in std::env::args_os().skip(1) {
        let hash = match hash_of_file(&name) {
            Ok(hash) => hash,
            Err(error) => {
                eprintln!("{}: {error}", name.to_string_lossy());
                status = ExitCode::FAILURE;
                continue;
            }
        };
        let digits: String = hash.iter().map(|byte| format!("{byte:02x}")).collect();
        let line = [digits.as_bytes(), b"  ", name.as_bytes(), b"\n"].concat();
        if let Err(error) = io::stdout().write_all(&line) {
            eprintln!("standard output: {error}");
            return ExitCode::FAILURE;
        }
    }
    status
}
