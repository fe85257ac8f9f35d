//! OpenSSL's libcrypto, opened when the program runs: no package for developers is needed, and where there
//! is no such library the program can say so.
//!
//! The hash is by the low-level calls, which are the fastest that the library offers for short messages
//! (its one-shot `SHA256` looks the algorithm up at every call). The cipher has no such calls; one context
//! is set up and kept.

use std::ffi::{c_char, c_int, c_uchar, c_void, CStr};
use std::ptr::{null, null_mut};
use std::sync::OnceLock;

extern "C" {
    fn dlopen(name: *const c_char, mode: c_int) -> *mut c_void;
    fn dlsym(library: *mut c_void, name: *const c_char) -> *mut c_void;
}

const RTLD_NOW: c_int = 2;

/// Room for OpenSSL's SHA256_CTX: 28 numbers of 32 bits.
pub type HashState = [u32; 28];

type Pointer = *const c_void;
type HashInit = unsafe extern "C" fn(*mut HashState) -> c_int;
type HashUpdate = unsafe extern "C" fn(*mut HashState, *const c_uchar, usize) -> c_int;
type HashFinal = unsafe extern "C" fn(*mut c_uchar, *mut HashState) -> c_int;
type CipherInit =
    unsafe extern "C" fn(*mut c_void, Pointer, Pointer, *const c_uchar, *const c_uchar) -> c_int;
type CipherUpdate =
    unsafe extern "C" fn(*mut c_void, *mut c_uchar, *mut c_int, *const c_uchar, c_int) -> c_int;

pub struct Libcrypto {
    pub hash_init: HashInit,
    pub hash_update: HashUpdate,
    pub hash_final: HashFinal,
    pub cipher_init: CipherInit,
    pub cipher_update: CipherUpdate,
    pub context: *mut c_void,
    version: &'static CStr,
}

// The one context is used by the one thread that measures.
unsafe impl Send for Libcrypto {}
unsafe impl Sync for Libcrypto {}

unsafe fn open() -> Option<Libcrypto> {
    let library = dlopen(c"libcrypto.so.3".as_ptr(), RTLD_NOW);
    if library.is_null() {
        return None;
    }
    let function = |name: &CStr| Some(dlsym(library, name.as_ptr())).filter(|found| !found.is_null());
    use std::mem::transmute;
    let version: unsafe extern "C" fn(c_int) -> *const c_char = transmute(function(c"OpenSSL_version")?);
    let new_context: unsafe extern "C" fn() -> *mut c_void = transmute(function(c"EVP_CIPHER_CTX_new")?);
    let chacha20: unsafe extern "C" fn() -> Pointer = transmute(function(c"EVP_chacha20")?);
    let found = Libcrypto {
        hash_init: transmute::<*mut c_void, HashInit>(function(c"SHA256_Init")?),
        hash_update: transmute::<*mut c_void, HashUpdate>(function(c"SHA256_Update")?),
        hash_final: transmute::<*mut c_void, HashFinal>(function(c"SHA256_Final")?),
        cipher_init: transmute::<*mut c_void, CipherInit>(function(c"EVP_EncryptInit_ex")?),
        cipher_update: transmute::<*mut c_void, CipherUpdate>(function(c"EVP_EncryptUpdate")?),
        context: new_context(),
        version: CStr::from_ptr(version(0)),
    };
    let ready = !found.context.is_null()
        && (found.cipher_init)(found.context, chacha20(), null(), null(), null_mut()) == 1;
    ready.then_some(found)
}

fn found() -> Option<&'static Libcrypto> {
    static FOUND: OnceLock<Option<Libcrypto>> = OnceLock::new();
    FOUND.get_or_init(|| unsafe { open() }).as_ref()
}

/// The library, where `version` said that it is there.
pub fn libcrypto() -> &'static Libcrypto {
    found().expect("libcrypto.so.3")
}

/// What the library calls itself, or nothing where it cannot be opened.
pub fn version() -> Option<&'static str> {
    found()?.version.to_str().ok()
}
