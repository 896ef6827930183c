//! MD5 of OpenSSL's libcrypto, opened at run time, in the two ways that it offers.

use std::ffi::{CStr, c_char, c_int, c_uint, c_void};
use std::mem;
use std::ptr;
use std::rc::Rc;

use crate::md5::Hasher;

/// One of the ways that OpenSSL offers.
pub type OpenSsl = Rc<dyn Hasher>;

/// All of them; none where there is no libcrypto.
pub fn ways() -> Vec<OpenSsl> {
    let Some(libcrypto) = Libcrypto::open() else {
        return Vec::new();
    };
    let mut ways: Vec<OpenSsl> = vec![Rc::new(Legacy::new(&libcrypto))];
    if let Some(evp) = Evp::new(&libcrypto) {
        ways.push(Rc::new(evp));
    }
    ways
}

/// The names of libcrypto, newest first.
const NAMES: [&CStr; 2] = [c"libcrypto.so.3", c"libcrypto.so.1.1"];

const RTLD_NOW: c_int = 2;

unsafe extern "C" {
    fn dlopen(name: *const c_char, flags: c_int) -> *mut c_void;
    fn dlsym(library: *mut c_void, name: *const c_char) -> *mut c_void;
}

/// An open libcrypto. It stays open until the program ends.
pub struct Libcrypto {
    name: &'static CStr,
    handle: *mut c_void,
}

impl Libcrypto {
    /// Opens libcrypto; none where there is none.
    pub fn open() -> Option<Self> {
        NAMES.into_iter().find_map(|name| {
            // SAFETY: the name is a C string, and libcrypto may be loaded at any time.
            let handle = unsafe { dlopen(name.as_ptr(), RTLD_NOW) };
            (!handle.is_null()).then_some(Self { name, handle })
        })
    }

    /// Its file name, and what it says of its version.
    pub fn version(&self) -> String {
        const OPENSSL_VERSION: c_int = 0;
        // SAFETY: the type is that of openssl/crypto.h, and the text lives as long as the library.
        let version = unsafe {
            let version: unsafe extern "C" fn(c_int) -> *const c_char =
                self.function(c"OpenSSL_version");
            CStr::from_ptr(version(OPENSSL_VERSION))
        };
        format!(
            "{}, {}",
            self.name.to_string_lossy(),
            version.to_string_lossy()
        )
    }

    /// The function of this name, if the library has it.
    ///
    /// # Safety
    ///
    /// `F` is the type of a pointer to that function.
    unsafe fn find<F: Copy>(&self, name: &CStr) -> Option<F> {
        const { assert!(size_of::<F>() == size_of::<*mut c_void>()) };
        // SAFETY: the library is open, and the name is a C string.
        let symbol = unsafe { dlsym(self.handle, name.as_ptr()) };
        // SAFETY: the caller says that F is this function's type.
        (!symbol.is_null()).then(|| unsafe { mem::transmute_copy(&symbol) })
    }

    /// As `find`, for a function that every libcrypto has.
    ///
    /// # Safety
    ///
    /// As for `find`.
    unsafe fn function<F: Copy>(&self, name: &CStr) -> F {
        // SAFETY: the caller says that F is this function's type.
        unsafe { self.find(name) }.unwrap_or_else(|| panic!("libcrypto has no {name:?}"))
    }
}

/// `MD5_CTX` of openssl/md5.h, of 23 numbers.
type Md5Ctx = [c_uint; 23];

/// The way of openssl/md5.h: `MD5`, and `MD5_Init`, `MD5_Update`, `MD5_Final`.
pub struct Legacy {
    md5: unsafe extern "C" fn(*const u8, usize, &mut [u8; 16]) -> *mut u8,
    init: unsafe extern "C" fn(&mut Md5Ctx) -> c_int,
    update: unsafe extern "C" fn(&mut Md5Ctx, *const u8, usize) -> c_int,
    finish: unsafe extern "C" fn(&mut [u8; 16], &mut Md5Ctx) -> c_int,
}

impl Legacy {
    /// The way through this library.
    pub fn new(library: &Libcrypto) -> Self {
        // SAFETY: the types are those of openssl/md5.h.
        unsafe {
            Self {
                md5: library.function(c"MD5"),
                init: library.function(c"MD5_Init"),
                update: library.function(c"MD5_Update"),
                finish: library.function(c"MD5_Final"),
            }
        }
    }
}

impl Hasher for Legacy {
    fn digest(&self, data: &[u8]) -> [u8; 16] {
        let mut digest = [0; 16];
        // SAFETY: pointer and length are those of one slice.
        unsafe { (self.md5)(data.as_ptr(), data.len(), &mut digest) };
        digest
    }

    fn digest_of_parts(&self, data: &[u8], size: usize) -> [u8; 16] {
        let mut context = [0; 23];
        let mut digest = [0; 16];
        // SAFETY: the context is begun first; pointer and length are those of one slice.
        unsafe {
            (self.init)(&mut context);
            for part in data.chunks(size) {
                (self.update)(&mut context, part.as_ptr(), part.len());
            }
            (self.finish)(&mut digest, &mut context);
        }
        digest
    }
}

/// The way of openssl/evp.h, with one context for all digests and, where the library can, with the
/// algorithm fetched beforehand. Both are kept until the program ends.
pub struct Evp {
    algorithm: *const c_void,
    context: *mut c_void,
    init: unsafe extern "C" fn(*mut c_void, *const c_void, *mut c_void) -> c_int,
    update: unsafe extern "C" fn(*mut c_void, *const u8, usize) -> c_int,
    finish: unsafe extern "C" fn(*mut c_void, &mut [u8; 16], *mut c_uint) -> c_int,
}

impl Evp {
    /// The way through this library; none where it is set up not to give MD5.
    pub fn new(library: &Libcrypto) -> Option<Self> {
        type Fetch =
            unsafe extern "C" fn(*mut c_void, *const c_char, *const c_char) -> *const c_void;
        type Md5 = unsafe extern "C" fn() -> *const c_void;
        type NewContext = unsafe extern "C" fn() -> *mut c_void;
        // SAFETY: the types are those of openssl/evp.h, which allows null for the library context,
        // for the properties and for the engine.
        unsafe {
            let algorithm = match library.find::<Fetch>(c"EVP_MD_fetch") {
                Some(fetch) => fetch(ptr::null_mut(), c"MD5".as_ptr(), ptr::null()),
                None => library.function::<Md5>(c"EVP_md5")(),
            };
            let context = library.function::<NewContext>(c"EVP_MD_CTX_new")();
            let way = Self {
                algorithm,
                context,
                init: library.function(c"EVP_DigestInit_ex"),
                update: library.function(c"EVP_DigestUpdate"),
                finish: library.function(c"EVP_DigestFinal_ex"),
            };
            let given = !algorithm.is_null()
                && !context.is_null()
                && (way.init)(context, algorithm, ptr::null_mut()) == 1;
            given.then_some(way)
        }
    }
}

impl Hasher for Evp {
    fn digest(&self, data: &[u8]) -> [u8; 16] {
        self.digest_of_parts(data, data.len().max(1))
    }

    fn digest_of_parts(&self, data: &[u8], size: usize) -> [u8; 16] {
        let mut digest = [0; 16];
        // SAFETY: the context is begun first; pointer and length are those of one slice; the
        // length of the digest may be null.
        unsafe {
            (self.init)(self.context, self.algorithm, ptr::null_mut());
            for part in data.chunks(size) {
                (self.update)(self.context, part.as_ptr(), part.len());
            }
            (self.finish)(self.context, &mut digest, ptr::null_mut());
        }
        digest
    }
}
