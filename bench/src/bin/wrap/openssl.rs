//! OpenSSL's EVP interface, from the libcrypto of the machine, which is loaded as the program runs:
//! AES-128-ECB a block at a time, and id-aes128-wrap-pad with the key given in each call, as to the
//! library.

use crate::{Calls, Refused};
use std::ffi::{c_char, c_int, c_void, CStr};
use std::mem::transmute;
use std::ptr::{null, null_mut};

extern "C" {
    fn dlopen(name: *const c_char, flags: c_int) -> *mut c_void;
    fn dlsym(library: *mut c_void, name: *const c_char) -> *mut c_void;
}

const RTLD_NOW: c_int = 2;
const WRAP_ALLOW: c_int = 1;

type Object = *mut c_void;
type Fetch = unsafe extern "C" fn(Object, *const c_char, *const c_char) -> Object;
type New = unsafe extern "C" fn() -> Object;
type SetFlags = unsafe extern "C" fn(Object, c_int);
type SetPadding = unsafe extern "C" fn(Object, c_int) -> c_int;
type Init = unsafe extern "C" fn(Object, Object, Object, *const u8, *const u8, c_int) -> c_int;
type Update = unsafe extern "C" fn(Object, *mut u8, *mut c_int, *const u8, c_int) -> c_int;

pub struct OpenSsl {
    init: Init,
    update: Update,
    encrypting: Object,
    decrypting: Object,
    wrapping: Object,
    unwrapping: Object,
}

/// A function of the library, with the type that its manual page gives.
unsafe fn function(library: Object, name: &CStr) -> Option<Object> {
    let found = dlsym(library, name.as_ptr());
    (!found.is_null()).then_some(found)
}

impl OpenSsl {
    /// A context for one cipher and direction, with a key to be given.
    unsafe fn context(
        library: Object,
        init: Init,
        cipher: &CStr,
        direction: c_int,
    ) -> Option<Object> {
        let fetch: Fetch = transmute(function(library, c"EVP_CIPHER_fetch")?);
        let new: New = transmute(function(library, c"EVP_CIPHER_CTX_new")?);
        let set_flags: SetFlags = transmute(function(library, c"EVP_CIPHER_CTX_set_flags")?);
        let set_padding: SetPadding = transmute(function(library, c"EVP_CIPHER_CTX_set_padding")?);
        let context = new();
        set_flags(context, WRAP_ALLOW);
        let fetched = fetch(null_mut(), cipher.as_ptr(), null());
        let done = init(
            context,
            fetched,
            null_mut(),
            [0; 16].as_ptr(),
            null(),
            direction,
        );
        set_padding(context, 0);
        (done == 1).then_some(context)
    }

    fn give_key(&self, context: Object, key: &[u8; 16]) {
        let done =
            unsafe { (self.init)(context, null_mut(), null_mut(), key.as_ptr(), null(), -1) };
        assert_eq!(done, 1);
    }

    /// The octets written; none where it is refused.
    fn put_through(&self, context: Object, input: &[u8], out: *mut u8) -> Option<usize> {
        let mut n = 0;
        let (s, sn) = (input.as_ptr(), input.len() as c_int);
        let done = unsafe { (self.update)(context, out, &mut n, s, sn) };
        (done == 1 && n > 0).then_some(n as usize)
    }

    fn block(&self, context: Object, block: &mut [u8; 16]) {
        let before = *block;
        assert_eq!(
            self.put_through(context, &before, block.as_mut_ptr()),
            Some(16)
        );
    }
}

impl Calls for OpenSsl {
    fn new() -> Option<Self> {
        unsafe {
            let library = dlopen(c"libcrypto.so.3".as_ptr(), RTLD_NOW);
            if library.is_null() {
                return None;
            }
            let init: Init = transmute(function(library, c"EVP_CipherInit_ex")?);
            Some(OpenSsl {
                init,
                update: transmute(function(library, c"EVP_CipherUpdate")?),
                encrypting: Self::context(library, init, c"AES-128-ECB", 1)?,
                decrypting: Self::context(library, init, c"AES-128-ECB", 0)?,
                wrapping: Self::context(library, init, c"id-aes128-wrap-pad", 1)?,
                unwrapping: Self::context(library, init, c"id-aes128-wrap-pad", 0)?,
            })
        }
    }
    fn prepare(&mut self, key: &[u8; 16]) {
        self.give_key(self.encrypting, key);
        self.give_key(self.decrypting, key);
    }
    fn expand(&mut self, key: &[u8; 16]) {
        self.give_key(self.encrypting, key);
    }
    fn encrypt(&mut self, block: &mut [u8; 16]) {
        self.block(self.encrypting, block);
    }
    fn decrypt(&mut self, block: &mut [u8; 16]) {
        self.block(self.decrypting, block);
    }
    /// It writes whole registers, so the output has room for them.
    fn wrap(&mut self, key: &[u8; 16], p: &[u8], out: &mut [u8]) -> Result<usize, Refused> {
        assert!(out.len() >= p.len() + 16);
        self.give_key(self.wrapping, key);
        self.put_through(self.wrapping, p, out.as_mut_ptr())
            .ok_or(Refused)
    }
    fn unwrap(&mut self, key: &[u8; 16], c: &[u8], out: &mut [u8]) -> Result<usize, Refused> {
        assert!(out.len() >= c.len());
        self.give_key(self.unwrapping, key);
        self.put_through(self.unwrapping, c, out.as_mut_ptr())
            .ok_or(Refused)
    }
}
