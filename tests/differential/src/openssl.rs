//! OpenSSL's id-aes128-wrap-pad. libcrypto is loaded as the program runs, because a machine that has it need not have
//! what a compiler wants of it.

use std::ffi::{c_char, c_int, c_void, CStr};

extern "C" {
    fn dlopen(name: *const c_char, flags: c_int) -> *mut c_void;
    fn dlsym(library: *mut c_void, name: *const c_char) -> *mut c_void;
}

// dlfcn.h of Linux, and openssl/evp.h.
const RTLD_NOW: c_int = 2;
const WRAP_ALLOW: c_int = 1;

type Fetch = unsafe extern "C" fn(*mut c_void, *const c_char, *const c_char) -> *mut c_void;
type NewContext = unsafe extern "C" fn() -> *mut c_void;
type SetFlags = unsafe extern "C" fn(*mut c_void, c_int);
type Init = unsafe extern "C" fn(*mut c_void, *const c_void, *mut c_void, *const u8, *const u8, c_int) -> c_int;
type Update = unsafe extern "C" fn(*mut c_void, *mut u8, *mut c_int, *const u8, c_int) -> c_int;

pub struct OpenSsl {
    cipher: *mut c_void,
    context: *mut c_void,
    init: Init,
    update: Update,
}

#[derive(Clone, Copy, PartialEq, Eq)]
pub enum Way {
    Unwrap = 0,
    Wrap = 1,
}

/// The address of a function, or what is not there.
unsafe fn find(library: *mut c_void, name: &CStr) -> Result<*mut c_void, String> {
    let address = dlsym(library, name.as_ptr());
    if address.is_null() {
        return Err(format!("libcrypto.so.3 has no {}", name.to_string_lossy()));
    }
    Ok(address)
}

impl OpenSsl {
    pub fn load() -> Result<OpenSsl, String> {
        use std::mem::transmute;
        unsafe {
            let library = dlopen(c"libcrypto.so.3".as_ptr(), RTLD_NOW);
            if library.is_null() {
                return Err("libcrypto.so.3 cannot be loaded".to_string());
            }
            let fetch: Fetch = transmute(find(library, c"EVP_CIPHER_fetch")?);
            let new_context: NewContext = transmute(find(library, c"EVP_CIPHER_CTX_new")?);
            let set_flags: SetFlags = transmute(find(library, c"EVP_CIPHER_CTX_set_flags")?);
            let init: Init = transmute(find(library, c"EVP_CipherInit_ex")?);
            let update: Update = transmute(find(library, c"EVP_CipherUpdate")?);

            let cipher = fetch(std::ptr::null_mut(), c"id-aes128-wrap-pad".as_ptr(), std::ptr::null());
            let context = new_context();
            if cipher.is_null() || context.is_null() {
                return Err("libcrypto.so.3 has no id-aes128-wrap-pad".to_string());
            }
            set_flags(context, WRAP_ALLOW);
            Ok(OpenSsl { cipher, context, init, update })
        }
    }

    /// The octets that OpenSSL gives, or `None` where it refuses these.
    pub fn answer(&mut self, way: Way, key: &[u8; 16], octets: &[u8]) -> Option<Vec<u8>> {
        // Unwrapping, OpenSSL clears as many octets of its output as its input has.
        let mut out = vec![0; octets.len() + 16];
        let mut written = 0;
        unsafe {
            let (none, no_engine) = (std::ptr::null(), std::ptr::null_mut());
            let begun = (self.init)(self.context, self.cipher, no_engine, key.as_ptr(), none, way as c_int);
            assert_eq!(begun, 1, "OpenSSL does not take a key of 16 octets");
            let n = octets.len() as c_int;
            if (self.update)(self.context, out.as_mut_ptr(), &mut written, octets.as_ptr(), n) != 1 {
                return None;
            }
        }
        out.truncate(written as usize);
        Some(out)
    }
}
