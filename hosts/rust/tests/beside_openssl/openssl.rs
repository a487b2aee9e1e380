//! AES-128-GCM and AES-256-GCM by OpenSSL's libcrypto, for keys of 16 and 32 bytes, with tags of 16 bytes.

use std::ffi::{c_int, c_void};
use std::ptr::null_mut;

#[rustfmt::skip]
#[link(name = "crypto")]
extern "C" {
    fn EVP_CIPHER_CTX_new() -> *mut c_void;
    fn EVP_CIPHER_CTX_free(ctx: *mut c_void);
    fn EVP_CIPHER_CTX_ctrl(ctx: *mut c_void, kind: c_int, arg: c_int, ptr: *mut c_void) -> c_int;
    fn EVP_aes_128_gcm() -> *const c_void;
    fn EVP_aes_256_gcm() -> *const c_void;
    fn EVP_EncryptInit_ex(ctx: *mut c_void, cipher: *const c_void, engine: *mut c_void, key: *const u8, iv: *const u8) -> c_int;
    fn EVP_EncryptUpdate(ctx: *mut c_void, out: *mut u8, n: *mut c_int, data: *const u8, len: c_int) -> c_int;
    fn EVP_EncryptFinal_ex(ctx: *mut c_void, out: *mut u8, n: *mut c_int) -> c_int;
    fn EVP_DecryptInit_ex(ctx: *mut c_void, cipher: *const c_void, engine: *mut c_void, key: *const u8, iv: *const u8) -> c_int;
    fn EVP_DecryptUpdate(ctx: *mut c_void, out: *mut u8, n: *mut c_int, data: *const u8, len: c_int) -> c_int;
    fn EVP_DecryptFinal_ex(ctx: *mut c_void, out: *mut u8, n: *mut c_int) -> c_int;
}

const GET_TAG: c_int = 0x10;
const SET_TAG: c_int = 0x11;

struct Context(*mut c_void);

impl Context {
    fn new() -> Context {
        // The library's own allocation; null is tested for.
        let ctx = unsafe { EVP_CIPHER_CTX_new() };
        assert!(!ctx.is_null());
        Context(ctx)
    }
}

impl Drop for Context {
    fn drop(&mut self) {
        // It is freed once, here.
        unsafe { EVP_CIPHER_CTX_free(self.0) }
    }
}

/// The cipher for a key of this length.
fn cipher(key: &[u8]) -> *const c_void {
    // They take nothing, and answer a constant of the library's.
    match key.len() {
        16 => unsafe { EVP_aes_128_gcm() },
        32 => unsafe { EVP_aes_256_gcm() },
        length => panic!("a key of {length} bytes"),
    }
}

/// The sealed text and its tag.
pub fn seal(key: &[u8], nonce: &[u8], aad: &[u8], text: &[u8]) -> (Vec<u8>, [u8; 16]) {
    assert_eq!(nonce.len(), 12);
    let ctx = Context::new();
    // OpenSSL asks for a little room behind the text.
    let mut out = vec![0; text.len() + 16];
    let mut tag = [0; 16];
    let mut n = 0;
    // Every pointer is a slice's, with that slice's length; `out` is as long as the text and a block.
    unsafe {
        assert_eq!(EVP_EncryptInit_ex(ctx.0, cipher(key), null_mut(), key.as_ptr(), nonce.as_ptr()), 1);
        assert_eq!(EVP_EncryptUpdate(ctx.0, null_mut(), &mut n, aad.as_ptr(), aad.len() as c_int), 1);
        assert_eq!(EVP_EncryptUpdate(ctx.0, out.as_mut_ptr(), &mut n, text.as_ptr(), text.len() as c_int), 1);
        assert_eq!(n as usize, text.len());
        assert_eq!(EVP_EncryptFinal_ex(ctx.0, out[text.len()..].as_mut_ptr(), &mut n), 1);
        assert_eq!(EVP_CIPHER_CTX_ctrl(ctx.0, GET_TAG, 16, tag.as_mut_ptr().cast()), 1);
    }
    out.truncate(text.len());
    (out, tag)
}

/// The text, if the tag is the standard's.
pub fn open(key: &[u8], nonce: &[u8], aad: &[u8], sealed: &[u8], tag: &[u8]) -> Option<Vec<u8>> {
    assert!(nonce.len() == 12 && tag.len() == 16);
    let ctx = Context::new();
    let mut tag = tag.to_vec();
    let mut out = vec![0; sealed.len() + 16];
    let mut n = 0;
    // As above; the tag is only read.
    let right = unsafe {
        assert_eq!(EVP_DecryptInit_ex(ctx.0, cipher(key), null_mut(), key.as_ptr(), nonce.as_ptr()), 1);
        assert_eq!(EVP_CIPHER_CTX_ctrl(ctx.0, SET_TAG, 16, tag.as_mut_ptr().cast()), 1);
        assert_eq!(EVP_DecryptUpdate(ctx.0, null_mut(), &mut n, aad.as_ptr(), aad.len() as c_int), 1);
        assert_eq!(EVP_DecryptUpdate(ctx.0, out.as_mut_ptr(), &mut n, sealed.as_ptr(), sealed.len() as c_int), 1);
        EVP_DecryptFinal_ex(ctx.0, out[sealed.len()..].as_mut_ptr(), &mut n) == 1
    };
    out.truncate(sealed.len());
    right.then_some(out)
}

/// GCM's own first test cases for keys of 128 and 256 bits, so that these declarations are known to be right.
#[test]
fn openssl_gives_the_standards_tags() {
    for (length, expected) in
        [(16, 0x58e2_fcce_fa7e_3061_367f_1d57_a4e7_455a), (32, 0x530f_8afb_c745_36b9_a963_b4f1_c4cb_738b)]
    {
        let key = vec![0; length];
        let (sealed, tag) = seal(&key, &[0; 12], &[], &[]);
        assert!(sealed.is_empty());
        assert_eq!(u128::from_be_bytes(tag), expected);
        assert_eq!(open(&key, &[0; 12], &[], &[], &tag), Some(vec![]));
        assert_eq!(open(&key, &[0; 12], &[1], &[], &tag), None);
    }
}
