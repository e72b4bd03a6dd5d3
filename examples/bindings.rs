//! What the examples in Rust use of libb3 and libb3store: the declarations of include/b3.h and include/b3store.h, and safe types over them.
#![allow(dead_code)]

use std::ffi::c_void;
use std::ptr::null_mut;

pub type Address = [u8; 32];

/// A handle of any kind, which is closed when it is dropped. One thread at a time may use it.
#[repr(C)]
struct Handle(*mut c_void);

#[repr(C)]
#[derive(Default)]
struct Why {
    number: u64,
    address: Address,
}

#[repr(C)]
#[derive(Default)]
struct Progress {
    held: u64,
    missing: u64,
    is_whole: u32,
}

#[repr(C)]
#[derive(Default)]
struct Sealed {
    address: Address,
    is_new: u32,
}

/// The memory of a hasher, whose fields are the library's.
#[repr(C, align(8))]
pub struct Hasher([u8; 7568]);

#[rustfmt::skip]
extern "C" {
    fn b3store_open(store: &mut Handle, tenants: u64, entries: u64, workers: u64) -> u32;
    fn b3store_close(handle: &mut Handle) -> u32;
    fn b3store_open_tenant(store: &mut Handle, limit: u64, tenant: &mut u64, why: &mut Why) -> u32;
    fn b3store_begin(store: &mut Handle, tenant: u64, len: u64, upload: &mut u64, why: &mut Why) -> u32;
    fn b3store_prepare(part: &mut Handle, bound: u64, is_open: bool, offset: u64, bytes: *const u8, len: usize, work: &mut u64) -> u32;
    fn b3store_put(store: &mut Handle, upload: u64, part: &mut Handle, held: &mut Progress, why: &mut Why, work: &mut u64) -> u32;
    fn b3store_seal(store: &mut Handle, upload: u64, sealed: &mut Sealed, why: &mut Why, work: &mut u64) -> u32;
    fn b3store_abort(store: &mut Handle, upload: u64, why: &mut Why) -> u32;
    fn b3store_fetch(store: &mut Handle, tenant: u64, address: &Address, object: &mut Handle, why: &mut Why) -> u32;
    fn b3store_len(handle: &mut Handle, len: &mut u64) -> u32;
    fn b3store_read(handle: &mut Handle, from: u64, room: *mut u8, len: usize, copied: &mut usize) -> u32;
    fn b3_hasher_init(hasher: &mut Hasher, mode: u32, key: *const u8, key_len: usize, compressions: &mut u64) -> u32;
    fn b3_hasher_update(hasher: &mut Hasher, bytes: *const u8, len: usize, compressions: &mut u64) -> u32;
    fn b3_hasher_finalize(hasher: &Hasher, out: *mut u8, out_len: usize, compressions: &mut u64) -> u32;
}

/// Why a call is refused.
#[derive(Debug)]
pub enum Refusal {
    /// The tenant has too few bytes left: this many.
    OverQuota(u64),
    /// The other answers, which include/b3store.h lists.
    Other(u32),
}

const OVER_QUOTA: u32 = 6;

fn check(answer: u32, why: &Why) -> Result<(), Refusal> {
    match answer {
        0 => Ok(()),
        OVER_QUOTA => Err(Refusal::OverQuota(why.number)),
        _ => Err(Refusal::Other(answer)),
    }
}

// SAFETY of the calls: each pointer has the length beside it, what is written is borrowed alone, and no pointer is null.

// SAFETY: a handle isn't bound to a thread.
unsafe impl Send for Handle {}

impl Drop for Handle {
    fn drop(&mut self) {
        unsafe { b3store_close(self) };
    }
}

/// A part of an upload, hashed.
pub struct Part(Handle);

impl Part {
    /// Prepares a part at an offset of an upload of `total` bytes. This uses no store, so it needs no lock.
    pub fn prepare(total: usize, offset: usize, bytes: &[u8]) -> Result<Part, Refusal> {
        let (mut handle, total, offset) = (Handle(null_mut()), total as u64, offset as u64);
        let (first, len) = (bytes.as_ptr(), bytes.len());
        let answer =
            unsafe { b3store_prepare(&mut handle, total, false, offset, first, len, &mut 0) };
        check(answer, &Why::default()).map(|()| Part(handle))
    }
}

/// A store, which threads can share under a lock.
pub struct Store(Handle);

impl Store {
    /// An empty store for one tenant.
    pub fn open() -> Result<Store, Refusal> {
        let mut store = Store(Handle(null_mut()));
        let answer = unsafe { b3store_open(&mut store.0, 1, 1 << 32, 1) };
        check(answer, &Why::default()).map(|()| store)
    }

    pub fn open_tenant(&mut self, limit: u64) -> Result<u64, Refusal> {
        let (mut tenant, mut why) = (0, Why::default());
        let answer = unsafe { b3store_open_tenant(&mut self.0, limit, &mut tenant, &mut why) };
        check(answer, &why).map(|()| tenant)
    }

    pub fn begin(&mut self, tenant: u64, len: usize) -> Result<u64, Refusal> {
        let (mut upload, mut why) = (0, Why::default());
        let answer =
            unsafe { b3store_begin(&mut self.0, tenant, len as u64, &mut upload, &mut why) };
        check(answer, &why).map(|()| upload)
    }

    pub fn put(&mut self, upload: u64, mut part: Part) -> Result<(), Refusal> {
        let (mut held, mut why) = (Progress::default(), Why::default());
        let (store, part) = (&mut self.0, &mut part.0);
        let answer = unsafe { b3store_put(store, upload, part, &mut held, &mut why, &mut 0) };
        check(answer, &why)
    }

    pub fn seal(&mut self, upload: u64) -> Result<Address, Refusal> {
        let (mut sealed, mut why) = (Sealed::default(), Why::default());
        let answer = unsafe { b3store_seal(&mut self.0, upload, &mut sealed, &mut why, &mut 0) };
        check(answer, &why).map(|()| sealed.address)
    }

    pub fn abort(&mut self, upload: u64) {
        unsafe { b3store_abort(&mut self.0, upload, &mut Why::default()) };
    }

    /// The bytes of an object that a tenant holds.
    pub fn fetch(&mut self, tenant: u64, address: &Address) -> Result<Vec<u8>, Refusal> {
        let (mut object, mut why, mut len) = (Handle(null_mut()), Why::default(), 0);
        let answer = unsafe { b3store_fetch(&mut self.0, tenant, address, &mut object, &mut why) };
        check(answer, &why)?;
        unsafe { b3store_len(&mut object, &mut len) };
        let (mut room, mut copied) = (vec![0; len as usize], 0);
        unsafe { b3store_read(&mut object, 0, room.as_mut_ptr(), room.len(), &mut copied) };
        Ok(room)
    }
}

impl Hasher {
    pub fn new() -> Hasher {
        let (mut hasher, key) = (Hasher([0; 7568]), [0]);
        unsafe { b3_hasher_init(&mut hasher, 0, key.as_ptr(), 0, &mut 0) };
        hasher
    }

    pub fn update(&mut self, bytes: &[u8]) {
        unsafe { b3_hasher_update(self, bytes.as_ptr(), bytes.len(), &mut 0) };
    }

    pub fn finalize(&self) -> Address {
        let mut out = [0; 32];
        unsafe { b3_hasher_finalize(self, out.as_mut_ptr(), out.len(), &mut 0) };
        out
    }
}
