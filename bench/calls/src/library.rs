//! The calls of the library for C that are measured, as its header has them.

use std::os::raw::c_void;

#[repr(C)]
#[derive(Clone, Copy)]
pub struct Tables {
    at: *const c_void,
    is_open: bool,
}

#[repr(C)]
struct Bytes {
    at: *const u8,
    len: usize,
}

#[repr(C)]
struct IndexFile {
    name: Bytes,
    text: Bytes,
}

#[repr(C)]
struct IndexFault {
    file: usize,
    line: usize,
}

#[repr(C)]
pub struct Handle {
    tables: Tables,
    // What an encoder keeps between calls: three numbers of a byte each.
    words: [u8; 3],
}

#[repr(C)]
#[derive(Clone, Copy, Default)]
pub struct EncoderProgress {
    pub read: usize,
    pub written: usize,
    pub outcome: u8,
    pub had_unmappable: bool,
    pub scalar: u32,
}

extern "C" {
    fn jillapun_tables_new(files: *const IndexFile, count: usize, out: *mut Tables, fault: *mut IndexFault) -> u8;
    fn jillapun_for_label(label: *const u8, len: usize) -> u8;
    fn jillapun_encoder_new(tables: Tables, encoding: u8, out: *mut Handle) -> u8;
    fn jillapun_encoder_encode_from_utf8(encoder: *mut Handle, text: *const u8, text_len: usize, dst: *mut u8,
        dst_len: usize, last: bool, progress: *mut EncoderProgress) -> u8;
    fn jillapun_encode(tables: Tables, encoding: u8, text: *const u8, text_len: usize, dst: *mut u8, dst_len: usize,
        written: *mut usize) -> u8;
    fn jillapun_mem_convert_latin1_to_str_partial(src: *const u8, src_len: usize, dst: *mut u8, dst_len: usize,
        read: *mut usize, written: *mut usize);
    fn jillapun_mem_convert_utf8_to_utf16_up_to_invalid(src: *const u8, src_len: usize, dst: *mut u16, dst_len: usize,
        read: *mut usize, written: *mut usize);
}

/// Tables of the index files of a folder.
pub fn tables(folder: &str) -> Tables {
    let read: Vec<(String, Vec<u8>)> = std::fs::read_dir(folder)
        .expect("the indexes")
        .map(|entry| entry.expect("an index").path())
        .filter(|path| path.extension().is_some_and(|it| it == "txt"))
        .map(|path| (path.file_name().unwrap().to_string_lossy().into_owned(), std::fs::read(&path).unwrap()))
        .filter(|(name, _)| name.starts_with("index-"))
        .collect();
    let lent = |data: &[u8]| Bytes { at: data.as_ptr(), len: data.len() };
    let files: Vec<IndexFile> = read
        .iter()
        .map(|(name, text)| IndexFile { name: lent(name.as_bytes()), text: lent(text) })
        .collect();
    let (mut tables, mut fault) = (Tables { at: std::ptr::null(), is_open: false }, IndexFault { file: 0, line: 0 });
    let status = unsafe { jillapun_tables_new(files.as_ptr(), files.len(), &mut tables, &mut fault) };
    assert_eq!(status, 0, "{} in line {}", read[fault.file].0, fault.line);
    tables
}

pub fn number_of(label: &str) -> u8 {
    unsafe { jillapun_for_label(label.as_ptr(), label.len()) }
}

/// An encoder of a stream.
pub struct Encoder(Handle);

impl Encoder {
    pub fn new(tables: Tables, encoding: u8) -> Self {
        let mut handle = Handle { tables: Tables { at: std::ptr::null(), is_open: false }, words: [0; 3] };
        assert_eq!(unsafe { jillapun_encoder_new(tables, encoding, &mut handle) }, 0);
        Encoder(handle)
    }

    pub fn encode(&mut self, text: &[u8], room: &mut [u8], last: bool) -> EncoderProgress {
        let mut progress = EncoderProgress::default();
        let status = unsafe {
            jillapun_encoder_encode_from_utf8(&mut self.0, text.as_ptr(), text.len(), room.as_mut_ptr(), room.len(), last, &mut progress)
        };
        assert_eq!(status, 0);
        progress
    }
}

/// A whole text at once: the length of its bytes.
pub fn encode(tables: Tables, encoding: u8, text: &[u8], room: &mut [u8]) -> usize {
    let mut written = 0;
    let status = unsafe { jillapun_encode(tables, encoding, text.as_ptr(), text.len(), room.as_mut_ptr(), room.len(), &mut written) };
    assert!(status <= 1);
    written
}

pub fn latin1_into_text(src: &[u8], text: &mut [u8]) -> usize {
    let (mut read, mut written) = (0, 0);
    unsafe {
        jillapun_mem_convert_latin1_to_str_partial(src.as_ptr(), src.len(), text.as_mut_ptr(), text.len(), &mut read, &mut written);
    }
    written
}

pub fn up_to_invalid(src: &[u8], room: &mut [u16]) -> usize {
    let (mut read, mut written) = (0, 0);
    unsafe {
        jillapun_mem_convert_utf8_to_utf16_up_to_invalid(src.as_ptr(), src.len(), room.as_mut_ptr(), room.len(), &mut read, &mut written);
    }
    read
}
