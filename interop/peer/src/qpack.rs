//! Field sections of HTTP/3 (RFC 9204) by libnghttp3, without a dynamic table.

use anyhow::{bail, ensure};
use std::ffi::c_void;
use std::os::raw::c_int;
use std::ptr::{null_mut, NonNull};
use std::slice;

/// A name with its value.
pub type Field = (String, String);

/// The declarations of `nghttp3.h` that are called here.
mod sys {
    use super::{c_int, c_void};

    #[repr(C)]
    pub struct Vector {
        pub base: *mut u8,
        pub length: usize,
    }

    #[repr(C)]
    pub struct Buffer {
        pub begin: *mut u8,
        pub end: *mut u8,
        pub next: *mut u8,
        pub last: *mut u8,
    }

    #[repr(C)]
    pub struct Field {
        pub name: *const u8,
        pub value: *const u8,
        pub name_length: usize,
        pub value_length: usize,
        pub flags: u8,
    }

    #[repr(C)]
    pub struct DecodedField {
        pub name: *mut c_void,
        pub value: *mut c_void,
        pub token: i32,
        pub flags: u8,
    }

    pub const EMIT: u8 = 1;
    pub const FINAL: u8 = 2;
    pub const BLOCKED: u8 = 4;

    #[rustfmt::skip]
    extern "C" {
        pub fn nghttp3_mem_default() -> *const c_void;
        pub fn nghttp3_buf_free(buffer: *mut Buffer, memory: *const c_void);
        pub fn nghttp3_rcbuf_get_buf(counted: *const c_void) -> Vector;
        pub fn nghttp3_rcbuf_decref(counted: *mut c_void);
        pub fn nghttp3_qpack_encoder_new(encoder: *mut *mut c_void, table: usize, memory: *const c_void) -> c_int;
        pub fn nghttp3_qpack_encoder_del(encoder: *mut c_void);
        pub fn nghttp3_qpack_encoder_encode(
            encoder: *mut c_void, prefix: *mut Buffer, fields: *mut Buffer, instructions: *mut Buffer,
            stream: i64, list: *const Field, count: usize,
        ) -> c_int;
        pub fn nghttp3_qpack_decoder_new(
            decoder: *mut *mut c_void, table: usize, blocked: usize, memory: *const c_void,
        ) -> c_int;
        pub fn nghttp3_qpack_decoder_del(decoder: *mut c_void);
        pub fn nghttp3_qpack_stream_context_new(context: *mut *mut c_void, stream: i64, memory: *const c_void) -> c_int;
        pub fn nghttp3_qpack_stream_context_del(context: *mut c_void);
        pub fn nghttp3_qpack_decoder_read_request(
            decoder: *mut c_void, context: *mut c_void, field: *mut DecodedField, flags: *mut u8,
            source: *const u8, length: usize, is_last: c_int,
        ) -> isize;
    }
}

/// An object of the library, which is deleted with this.
struct Owned {
    object: NonNull<c_void>,
    delete: unsafe extern "C" fn(*mut c_void),
}

impl Owned {
    /// Calls a constructor of the library.
    fn new(
        make: impl FnOnce(*mut *mut c_void, *const c_void) -> c_int,
        delete: unsafe extern "C" fn(*mut c_void),
    ) -> anyhow::Result<Self> {
        let mut object = null_mut();
        // SAFETY: the call has no condition.
        let made = make(&mut object, unsafe { sys::nghttp3_mem_default() });
        match NonNull::new(object) {
            Some(object) if made == 0 => Ok(Self { object, delete }),
            _ => bail!("libnghttp3 has no memory"),
        }
    }
}

impl Drop for Owned {
    fn drop(&mut self) {
        // SAFETY: the library made the object, and it is deleted once.
        unsafe { (self.delete)(self.object.as_ptr()) }
    }
}

/// Output of the library.
struct Output(sys::Buffer);

impl Output {
    fn new() -> Self {
        Self(sys::Buffer {
            begin: null_mut(),
            end: null_mut(),
            next: null_mut(),
            last: null_mut(),
        })
    }

    fn bytes(&self) -> &[u8] {
        if self.0.next.is_null() {
            return &[];
        }
        // SAFETY: the library wrote the bytes from `next` to `last`.
        unsafe { slice::from_raw_parts(self.0.next, self.0.last as usize - self.0.next as usize) }
    }
}

impl Drop for Output {
    fn drop(&mut self) {
        // SAFETY: the library allocated the memory, if any, by this allocator.
        unsafe { sys::nghttp3_buf_free(&mut self.0, sys::nghttp3_mem_default()) }
    }
}

pub fn encode(fields: &[(&str, &str)]) -> anyhow::Result<Vec<u8>> {
    let list: Vec<sys::Field> = fields
        .iter()
        .map(|(name, value)| sys::Field {
            name: name.as_ptr(),
            value: value.as_ptr(),
            name_length: name.len(),
            value_length: value.len(),
            flags: 0,
        })
        .collect();
    // SAFETY: the constructor gets a place for its result, and the destructor is that of its object.
    let encoder = Owned::new(
        |place, memory| unsafe { sys::nghttp3_qpack_encoder_new(place, 0, memory) },
        sys::nghttp3_qpack_encoder_del,
    )?;
    let (mut prefix, mut section, mut instructions) = (Output::new(), Output::new(), Output::new());
    // SAFETY: the buffers are empty ones of the library, and the list outlives the call.
    let encoded = unsafe {
        sys::nghttp3_qpack_encoder_encode(
            encoder.object.as_ptr(),
            &mut prefix.0,
            &mut section.0,
            &mut instructions.0,
            0,
            list.as_ptr(),
            list.len(),
        )
    };
    ensure!(encoded == 0, "QPACK: error {encoded} of libnghttp3");
    let without_table = instructions.bytes().is_empty();
    ensure!(without_table, "QPACK: the encoder used its dynamic table");
    Ok([prefix.bytes(), section.bytes()].concat())
}

pub fn decode(mut section: &[u8]) -> anyhow::Result<Vec<Field>> {
    // SAFETY: each constructor gets a place for its result, and the destructor is that of its object.
    let decoder = Owned::new(
        |place, memory| unsafe { sys::nghttp3_qpack_decoder_new(place, 0, 0, memory) },
        sys::nghttp3_qpack_decoder_del,
    )?;
    let context = Owned::new(
        |place, memory| unsafe { sys::nghttp3_qpack_stream_context_new(place, 0, memory) },
        sys::nghttp3_qpack_stream_context_del,
    )?;
    let mut fields = Vec::new();
    loop {
        let (count, flags, field) = decode_one(&decoder, &context, section)?;
        section = &section[count..];
        ensure!(flags & sys::BLOCKED == 0, "QPACK: no table is allowed");
        if flags & sys::FINAL != 0 {
            return Ok(fields);
        }
        match field {
            Some(field) => fields.push(field),
            None => ensure!(count > 0, "QPACK: the field section is cut"),
        }
    }
}

/// Has the library read on: how many bytes it took, its flags, and a field if it emitted one.
fn decode_one(
    decoder: &Owned,
    context: &Owned,
    section: &[u8],
) -> anyhow::Result<(usize, u8, Option<Field>)> {
    let mut flags = 0;
    let mut field = sys::DecodedField {
        name: null_mut(),
        value: null_mut(),
        token: 0,
        flags: 0,
    };
    // SAFETY: both objects are live, and the section is as long as the call is told.
    let count = unsafe {
        sys::nghttp3_qpack_decoder_read_request(
            decoder.object.as_ptr(),
            context.object.as_ptr(),
            &mut field,
            &mut flags,
            section.as_ptr(),
            section.len(),
            1,
        )
    };
    let Ok(count) = usize::try_from(count) else {
        bail!("QPACK: error {count} of libnghttp3");
    };
    // SAFETY: with this flag both are counted buffers, of which this is one owner.
    let emitted =
        (flags & sys::EMIT != 0).then(|| unsafe { (text(field.name), text(field.value)) });
    Ok((count, flags, emitted))
}

/// The text of a counted buffer, which is given back.
///
/// # Safety
///
/// `counted` is a live buffer, and the caller owns one count of it.
unsafe fn text(counted: *mut c_void) -> String {
    let bytes = sys::nghttp3_rcbuf_get_buf(counted);
    let text =
        String::from_utf8_lossy(slice::from_raw_parts(bytes.base, bytes.length)).into_owned();
    sys::nghttp3_rcbuf_decref(counted);
    text
}

#[cfg(test)]
mod tests {
    use super::*;

    #[test]
    fn fields_come_back() {
        let fields = [
            (":method", "GET"),
            (":path", "/a?b"),
            ("x-long", "value value"),
        ];
        let section = encode(&fields).unwrap();
        let owned = fields.map(|(name, value)| (name.to_owned(), value.to_owned()));
        assert_eq!(decode(&section).unwrap(), owned);
        for length in 0..section.len() - 1 {
            assert_ne!(decode(&section[..length]).unwrap_or_default(), owned);
        }
    }

    /// The first example of RFC 9204 appendix B.
    #[test]
    fn a_section_of_the_rfc_is_decoded() {
        let section = b"\x00\x00\x51\x0b/index.html";
        let path = (":path".to_owned(), "/index.html".to_owned());
        assert_eq!(decode(section).unwrap(), [path]);
    }
}
