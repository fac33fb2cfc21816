//! Debian's libogg (package libogg0): pages in bytes, packets in pages, pages
//! of packets.
//!
//! The library is loaded when it is first needed, so that all else is built and
//! runs where it is not installed.
#![allow(unsafe_code)]

use std::ffi::{CStr, c_char, c_int, c_long, c_void};
use std::mem::transmute;
use std::ptr::null_mut;
use std::slice;
use std::sync::OnceLock;

/// The file of the library.
const FILE: &CStr = c"libogg.so.0";

/// Room for an `ogg_sync_state`, into which libogg alone looks.
#[repr(C)]
struct SyncState([u64; 8]);

/// Room for an `ogg_stream_state`, into which libogg alone looks.
#[repr(C)]
struct StreamState([u64; 64]);

/// `ogg_page`.
#[repr(C)]
struct RawPage {
    header: *mut u8,
    header_len: c_long,
    body: *mut u8,
    body_len: c_long,
}

impl RawPage {
    /// Where libogg is to write a page.
    fn none() -> RawPage {
        RawPage {
            header: null_mut(),
            header_len: 0,
            body: null_mut(),
            body_len: 0,
        }
    }
}

/// `ogg_packet`.
#[repr(C)]
struct RawPacket {
    packet: *mut u8,
    bytes: c_long,
    b_o_s: c_long,
    e_o_s: c_long,
    granulepos: i64,
    packetno: i64,
}

unsafe extern "C" {
    fn dlopen(file: *const c_char, flags: c_int) -> *mut c_void;
    fn dlsym(library: *mut c_void, name: *const c_char) -> *mut c_void;
    fn dlerror() -> *const c_char;
}

/// `RTLD_NOW`: all that the library itself needs is looked up at once.
const NOW: c_int = 2;

/// Declares functions of libogg, with how they are looked up.
macro_rules! functions {
    ($($name:ident($($type:ty),*) -> $answer:ty;)*) => {
        /// The functions of libogg.
        struct Functions {
            $($name: unsafe extern "C" fn($($type),*) -> $answer,)*
        }

        impl Functions {
            /// Loads the library.
            fn load() -> Result<Functions, String> {
                // SAFETY: the name is a C string; libogg has no constructors.
                let library = unsafe { dlopen(FILE.as_ptr(), NOW) };
                if library.is_null() {
                    return Err(last_error());
                }
                Ok(Functions {
                    // SAFETY: ogg/ogg.h declares the function with this type.
                    $($name: unsafe {
                        transmute::<*mut c_void, unsafe extern "C" fn($($type),*) -> $answer>(
                            find(library, concat!(stringify!($name), "\0"))?
                        )
                    },)*
                })
            }
        }
    };
}

functions! {
    ogg_sync_init(*mut SyncState) -> c_int;
    ogg_sync_clear(*mut SyncState) -> c_int;
    ogg_sync_buffer(*mut SyncState, c_long) -> *mut u8;
    ogg_sync_wrote(*mut SyncState, c_long) -> c_int;
    ogg_sync_pageseek(*mut SyncState, *mut RawPage) -> c_long;
    ogg_page_bos(*const RawPage) -> c_int;
    ogg_page_eos(*const RawPage) -> c_int;
    ogg_page_continued(*const RawPage) -> c_int;
    ogg_page_serialno(*const RawPage) -> c_int;
    ogg_page_version(*const RawPage) -> c_int;
    ogg_page_pageno(*const RawPage) -> c_long;
    ogg_page_granulepos(*const RawPage) -> i64;
    ogg_stream_init(*mut StreamState, c_int) -> c_int;
    ogg_stream_clear(*mut StreamState) -> c_int;
    ogg_stream_reset(*mut StreamState) -> c_int;
    ogg_stream_pagein(*mut StreamState, *mut RawPage) -> c_int;
    ogg_stream_packetout(*mut StreamState, *mut RawPacket) -> c_int;
    ogg_stream_packetin(*mut StreamState, *mut RawPacket) -> c_int;
    ogg_stream_flush(*mut StreamState, *mut RawPage) -> c_int;
}

/// A function of a library, by its name with a zero behind it.
fn find(library: *mut c_void, name: &str) -> Result<*mut c_void, String> {
    // SAFETY: the library is loaded, and the name ends with a zero.
    let found = unsafe { dlsym(library, name.as_ptr().cast()) };
    match found.is_null() {
        true => Err(last_error()),
        false => Ok(found),
    }
}

/// Why loading failed.
fn last_error() -> String {
    // SAFETY: dlerror gives null or a C string, which this thread's next call
    // of its kind frees.
    let text = unsafe {
        let text = dlerror();
        match text.is_null() {
            true => c"no such function",
            false => CStr::from_ptr(text),
        }
        .to_string_lossy()
    };
    format!("libogg (Debian package libogg0) cannot be loaded: {text}")
}

/// The functions of libogg, or why they cannot be had.
fn functions() -> Result<&'static Functions, String> {
    static LOADED: OnceLock<Result<Functions, String>> = OnceLock::new();
    LOADED
        .get_or_init(Functions::load)
        .as_ref()
        .map_err(String::clone)
}

/// Copies so many bytes.
///
/// # Safety
///
/// The pointer points to so many bytes.
unsafe fn copy(first: *const u8, length: c_long) -> Vec<u8> {
    // SAFETY: as the caller promises.
    unsafe { slice::from_raw_parts(first, length as usize) }.to_vec()
}

/// A page, as libogg gave it.
pub struct Page {
    functions: &'static Functions,
    header: Vec<u8>,
    body: Vec<u8>,
}

impl Page {
    /// Copies a page that libogg just gave.
    ///
    /// # Safety
    ///
    /// Header and body point to so many bytes.
    unsafe fn copy(functions: &'static Functions, raw: &RawPage) -> Page {
        // SAFETY: as the caller promises.
        unsafe {
            Page {
                functions,
                header: copy(raw.header, raw.header_len),
                body: copy(raw.body, raw.body_len),
            }
        }
    }

    /// The page as libogg takes it. It only reads there.
    fn raw(&self) -> RawPage {
        RawPage {
            header: self.header.as_ptr().cast_mut(),
            header_len: self.header.len() as c_long,
            body: self.body.as_ptr().cast_mut(),
            body_len: self.body.len() as c_long,
        }
    }

    /// Asks libogg for something that the header says.
    fn ask<T>(&self, function: unsafe extern "C" fn(*const RawPage) -> T) -> T {
        // SAFETY: libogg gave this header, so that it is whole.
        unsafe { function(&self.raw()) }
    }

    /// Whether it is its stream's first.
    pub fn is_first(&self) -> bool {
        self.ask(self.functions.ogg_page_bos) != 0
    }

    /// Whether it is its stream's last.
    pub fn is_last(&self) -> bool {
        self.ask(self.functions.ogg_page_eos) != 0
    }

    /// Whether it begins with the rest of a packet.
    pub fn is_continued(&self) -> bool {
        self.ask(self.functions.ogg_page_continued) != 0
    }

    /// The serial number of its stream.
    pub fn serial(&self) -> u32 {
        self.ask(self.functions.ogg_page_serialno) as u32
    }

    /// Its number in its stream.
    pub fn number(&self) -> u32 {
        self.ask(self.functions.ogg_page_pageno) as u32
    }

    /// The version of its form. libogg takes version 0 alone.
    pub fn version(&self) -> c_int {
        self.ask(self.functions.ogg_page_version)
    }

    /// The granule position of the last packet that ends on it, if one does.
    pub fn granule(&self) -> Option<u64> {
        u64::try_from(self.ask(self.functions.ogg_page_granulepos)).ok()
    }

    /// Whether its last packet goes on in the next page; none if no packet
    /// touches it.
    pub fn is_open(&self) -> Option<bool> {
        let lacing = &self.header[27..];
        Some(*lacing.last()? == 255)
    }

    /// The bytes of its packets.
    pub fn body(&self) -> &[u8] {
        &self.body
    }

    /// All of its bytes.
    pub fn bytes(&self) -> Vec<u8> {
        [&self.header[..], &self.body].concat()
    }

    /// How many bytes it has.
    pub fn length(&self) -> u64 {
        (self.header.len() + self.body.len()) as u64
    }
}

/// What stands next in the bytes.
pub enum Next {
    /// A whole page with a right checksum.
    Page(Page),
    /// Something else, for so many bytes.
    NoPage(u64),
    /// This cannot be said before more bytes come.
    Open,
}

/// Finds pages in bytes.
pub struct PageFinder {
    functions: &'static Functions,
    state: SyncState,
}

impl PageFinder {
    /// There are no bytes yet.
    ///
    /// # Errors
    ///
    /// Why libogg cannot be had.
    pub fn new() -> Result<PageFinder, String> {
        let functions = functions()?;
        let mut state = SyncState([0; 8]);
        // SAFETY: there is room for the state.
        unsafe { (functions.ogg_sync_init)(&mut state) };
        Ok(PageFinder { functions, state })
    }

    /// Takes more bytes in.
    pub fn take(&mut self, bytes: &[u8]) {
        let length = bytes.len() as c_long;
        // SAFETY: the state was made by libogg, and ogg_sync_buffer gives room
        // for so many bytes.
        unsafe {
            let room = (self.functions.ogg_sync_buffer)(&mut self.state, length);
            assert!(!room.is_null(), "no memory for a page");
            room.copy_from_nonoverlapping(bytes.as_ptr(), bytes.len());
            (self.functions.ogg_sync_wrote)(&mut self.state, length);
        }
    }

    /// What stands next. It is passed over with this.
    pub fn next(&mut self) -> Next {
        let mut raw = RawPage::none();
        // SAFETY: the state was made by libogg. A positive answer says that it
        // wrote a page, whose bytes stay where they are until the next call.
        unsafe {
            match (self.functions.ogg_sync_pageseek)(&mut self.state, &mut raw) {
                0 => Next::Open,
                1.. => Next::Page(Page::copy(self.functions, &raw)),
                skipped => Next::NoPage(skipped.unsigned_abs()),
            }
        }
    }
}

impl Drop for PageFinder {
    fn drop(&mut self) {
        // SAFETY: the state was made by libogg.
        unsafe { (self.functions.ogg_sync_clear)(&mut self.state) };
    }
}

/// A logical stream, read or written.
struct Stream {
    functions: &'static Functions,
    state: Box<StreamState>,
}

impl Stream {
    /// A stream with this serial number.
    fn new(serial: u32) -> Result<Stream, String> {
        let functions = functions()?;
        let mut state = Box::new(StreamState([0; 64]));
        // SAFETY: there is room for the state.
        let made = unsafe { (functions.ogg_stream_init)(&mut *state, serial as c_int) };
        assert!(made == 0, "no memory for a stream");
        Ok(Stream { functions, state })
    }
}

impl Drop for Stream {
    fn drop(&mut self) {
        // SAFETY: the state was made by libogg.
        unsafe { (self.functions.ogg_stream_clear)(&mut *self.state) };
    }
}

/// Finds the packets in the pages of a logical stream.
pub struct PacketFinder(Stream);

impl PacketFinder {
    /// The stream with this serial number, from its beginning.
    ///
    /// # Errors
    ///
    /// Why libogg cannot be had.
    pub fn new(serial: u32) -> Result<PacketFinder, String> {
        Stream::new(serial).map(PacketFinder)
    }

    /// Takes in a page of this stream and of version 0; gives the packets that
    /// end on it.
    pub fn take(&mut self, page: &Page) -> Vec<Vec<u8>> {
        let Stream { functions, state } = &mut self.0;
        // SAFETY: libogg made the state and gave the page; it copies the page.
        let taken = unsafe { (functions.ogg_stream_pagein)(&mut **state, &mut page.raw()) };
        assert!(taken == 0, "no memory for a page");
        std::iter::from_fn(|| self.packet()).collect()
    }

    /// Forgets the pages taken so far, and a packet that is not whole. The next
    /// page may have any number; a packet that goes on in it is left out.
    pub fn forget(&mut self) {
        let Stream { functions, state } = &mut self.0;
        // SAFETY: libogg made the state.
        unsafe { (functions.ogg_stream_reset)(&mut **state) };
    }

    /// The next packet of the pages taken so far.
    fn packet(&mut self) -> Option<Vec<u8>> {
        let Stream { functions, state } = &mut self.0;
        let mut raw = raw_packet(&[], 0, false);
        // SAFETY: libogg made the state. The answer 1 says that it wrote a
        // packet, whose bytes stay where they are until the next call.
        unsafe {
            match (functions.ogg_stream_packetout)(&mut **state, &mut raw) {
                1 => Some(copy(raw.packet, raw.bytes)),
                _ => None,
            }
        }
    }
}

/// Writes the packets of a logical stream into pages.
pub struct PageWriter(Stream);

impl PageWriter {
    /// A stream with this serial number.
    ///
    /// # Errors
    ///
    /// Why libogg cannot be had.
    pub fn new(serial: u32) -> Result<PageWriter, String> {
        Stream::new(serial).map(PageWriter)
    }

    /// The pages of one more packet, which begins the first of them. The last
    /// of them has its granule position and says whether the stream ends.
    pub fn packet(&mut self, packet: &[u8], granule: u64, last: bool) -> Vec<Page> {
        let Stream { functions, state } = &mut self.0;
        // SAFETY: libogg made the state, and copies the packet.
        let taken = unsafe {
            (functions.ogg_stream_packetin)(&mut **state, &mut raw_packet(packet, granule, last))
        };
        assert!(taken == 0, "no memory for a packet");
        std::iter::from_fn(|| self.page()).collect()
    }

    /// A page of what is not yet in one.
    fn page(&mut self) -> Option<Page> {
        let Stream { functions, state } = &mut self.0;
        let mut raw = RawPage::none();
        // SAFETY: libogg made the state. An answer other than 0 says that it
        // wrote a page, whose bytes stay where they are until the next call.
        unsafe {
            match (functions.ogg_stream_flush)(&mut **state, &mut raw) {
                0 => None,
                _ => Some(Page::copy(functions, &raw)),
            }
        }
    }
}

/// A packet as libogg takes it. It only reads there.
fn raw_packet(packet: &[u8], granule: u64, last: bool) -> RawPacket {
    RawPacket {
        packet: packet.as_ptr().cast_mut(),
        bytes: packet.len() as c_long,
        b_o_s: 0,
        e_o_s: c_long::from(last),
        granulepos: granule as i64,
        packetno: 0,
    }
}

#[cfg(test)]
mod tests {
    use super::*;
    use std::io::Write;
    use std::mem::offset_of;
    use std::process::{Command, Stdio};

    /// A line of C that fails to compile if a condition does not hold.
    fn must(condition: String) -> String {
        format!("_Static_assert({condition}, \"\");\n")
    }

    /// A struct that libogg alone looks into must have room here.
    fn has_room<T>(name: &str) -> String {
        let (size, align) = (size_of::<T>(), align_of::<T>());
        must(format!(
            "sizeof({name}) <= {size} && _Alignof({name}) <= {align}"
        ))
    }

    /// A struct, or a part of one, must lie as it does here.
    macro_rules! same {
        ($type:ty, $name:literal: $($field:ident),*) => {
            must(format!("sizeof({}) == {}", $name, size_of::<$type>()))
            $(+ &must(format!(
                "offsetof({}, {}) == {}",
                $name, stringify!($field), offset_of!($type, $field)
            )))*
        };
    }

    #[test]
    fn the_structs_are_those_of_libogg() {
        let text = [
            "#include <stddef.h>\n#include <ogg/ogg.h>\n".to_string(),
            has_room::<SyncState>("ogg_sync_state"),
            has_room::<StreamState>("ogg_stream_state"),
            same!(RawPage, "ogg_page": header, header_len, body, body_len),
            same!(RawPacket, "ogg_packet": packet, bytes, b_o_s, e_o_s, granulepos, packetno),
        ]
        .concat();
        let mut compiler = Command::new("cc")
            .args(["-x", "c", "-std=c11", "-fsyntax-only", "-"])
            .stdin(Stdio::piped())
            .spawn()
            .unwrap();
        let mut input = compiler.stdin.take().unwrap();
        input.write_all(text.as_bytes()).unwrap();
        drop(input);
        let compiled = compiler.wait().unwrap().success();
        assert!(compiled, "this needs libogg-dev:\n{text}");
    }
}
