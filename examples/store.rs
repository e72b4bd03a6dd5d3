//! store LIMIT FILE..: keeps files of less than 64 MiB in a store, for a tenant with LIMIT bytes, reads them back, and writes their addresses. Four threads
//! prepare the parts of a file. It uses the proved library libb3store: rustc -O store.rs -C link-args="$(pkg-config --libs b3store)"

mod bindings;

use bindings::{Address, Part, Refusal, Store};
use std::io::{self, Write};
use std::{env, fs, path::Path, process::ExitCode, thread};

const THREADS: usize = 4;
const CHUNK_LEN: usize = 1024;

/// Has each thread prepare a part. This uses no store, so it needs no lock.
fn prepare(content: &[u8]) -> Vec<Result<Part, Refusal>> {
    let max_len = (content.len() / (THREADS * CHUNK_LEN) + 1) * CHUNK_LEN;
    let prepare_at = |i: usize, part| Part::prepare(content.len(), i * max_len, part);
    thread::scope(|scope| {
        let parts = content.chunks(max_len).enumerate();
        let start = |(i, part)| scope.spawn(move || prepare_at(i, part));
        let threads: Vec<_> = parts.map(start).collect();
        let join = |thread: thread::ScopedJoinHandle<_>| thread.join().unwrap();
        threads.into_iter().map(join).collect()
    })
}

/// Keeps content, and returns its address.
fn file(store: &mut Store, tenant: u64, content: &[u8]) -> Result<Address, Refusal> {
    let upload = store.begin(tenant, content.len())?;
    let mut put = prepare(content).into_iter();
    let filed = put.try_for_each(|part| store.put(upload, part?));
    let filed = filed.and_then(|()| store.seal(upload));
    if filed.is_err() {
        store.abort(upload);
    }
    filed
}

/// Files what a file has, reads it back, and writes its address. Returns why it can't.
fn keep(store: &mut Store, tenant: u64, name: &Path) -> Result<(), String> {
    let content = fs::read(name).map_err(|error| error.to_string())?;
    let address = file(store, tenant, &content).map_err(|refusal| match refusal {
        Refusal::OverQuota(left) => format!("the tenant has too few bytes left: {left}"),
        Refusal::Other(answer) => format!("refused, with the answer {answer}"),
    })?;
    if store.fetch(tenant, &address).ok() != Some(content) {
        return Err("can't be read back".to_string());
    }
    let digits: String = address.iter().map(|byte| format!("{byte:02x}")).collect();
    writeln!(io::stdout(), "{digits}  {}", name.display()).map_err(|error| error.to_string())
}

fn main() -> ExitCode {
    let limit = env::args_os()
        .nth(1)
        .and_then(|word| word.to_str()?.parse().ok());
    let opened = Store::open().and_then(|mut store| {
        let tenant = store.open_tenant(limit.unwrap_or(u64::MAX))?;
        Ok((store, tenant))
    });
    let Ok((mut store, tenant)) = opened else {
        eprintln!("usage: store LIMIT FILE..");
        return ExitCode::from(2);
    };
    let mut status = ExitCode::SUCCESS;
    for name in env::args_os().skip(2) {
        if let Err(fault) = keep(&mut store, tenant, Path::new(&name)) {
            eprintln!("{}: {fault}", Path::new(&name).display());
            status = ExitCode::FAILURE;
        }
    }
    status
}
