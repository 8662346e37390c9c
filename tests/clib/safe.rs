//! A log on disk and one in memory, behind types that can't be misused: a small wrapper over the library for C, and a program that uses it.
//! tests/clib.py builds and runs it.
use std::ffi::{CStr, CString};
use std::os::raw::{c_char, c_void};
use std::{env, fmt, ptr};

#[repr(C)]
#[derive(Clone, Copy, Default)]
pub struct Entry {
    pub start_ms: i32,
    pub end_ms: i32,
    pub mtime: i64,
    pub hash: u64,
}

#[repr(C)]
struct Handle {
    made: u64,
    at: *mut c_void,
}

extern "C" {
    fn nlog_load(log: *mut Handle, bytes: *const u8, len: usize) -> u32;
    fn nlog_free(log: *mut Handle);
    fn nlog_find(log: *mut Handle, name: *const u8, len: usize, entry: *mut Entry) -> u32;
    fn nlog_command_hash(command: *const u8, len: usize) -> u64;
    fn nlog_status_text(status: u32, text: *mut u8, room: usize) -> usize;
    fn nlog_writer_new(writer: *mut *mut c_void, path: *const c_char, version: u32) -> u32;
    fn nlog_writer_free(writer: *mut *mut c_void);
    fn nlog_writer_open(writer: *mut c_void) -> u32;
    fn nlog_writer_record(writer: *mut c_void, name: *const u8, len: usize, entry: *const Entry) -> u32;
    fn nlog_writer_find(writer: *mut c_void, name: *const u8, len: usize, entry: *mut Entry) -> u32;
    fn nlog_writer_close(writer: *mut c_void) -> u32;
    fn nlog_writer_failed_call(writer: *const c_void) -> *const c_char;
}

const NOT_FOUND: u32 = 5;

/// A refusal: its status, and the call of the system that failed, where one did.
#[derive(Debug)]
pub struct Refusal(u32, Option<String>);

impl fmt::Display for Refusal {
    fn fmt(&self, to: &mut fmt::Formatter) -> fmt::Result {
        let mut text = [0; 64];
        let len = unsafe { nlog_status_text(self.0, text.as_mut_ptr(), text.len()) }.min(text.len());
        write!(to, "{}", String::from_utf8_lossy(&text[..len]))?;
        self.1.iter().try_for_each(|call| write!(to, ": {call}"))
    }
}

fn told(status: u32) -> Result<(), Refusal> {
    if status == 0 { Ok(()) } else { Err(Refusal(status, None)) }
}

/// A log that was loaded. A look-up takes it mutably, since the library has one call at a time on a handle.
pub struct Log(Handle);

impl Log {
    pub fn load(bytes: &[u8]) -> Result<Log, Refusal> {
        let mut log = Log(Handle { made: 0, at: ptr::null_mut() });
        told(unsafe { nlog_load(&mut log.0, bytes.as_ptr(), bytes.len()) })?;
        Ok(log)
    }

    pub fn find(&mut self, name: &[u8]) -> Option<Entry> {
        let mut entry = Entry::default();
        let status = unsafe { nlog_find(&mut self.0, name.as_ptr(), name.len(), &mut entry) };
        (status == 0).then_some(entry)
    }
}

impl Drop for Log {
    fn drop(&mut self) {
        unsafe { nlog_free(&mut self.0) }
    }
}

/// A log on disk, which is open until it is closed.
pub struct Writer(*mut c_void);

impl Writer {
    /// Version 0 is that of the log.
    pub fn open(path: &str, version: u32) -> Result<Writer, Refusal> {
        let path = CString::new(path).map_err(|_| Refusal(NOT_FOUND, None))?;
        let mut writer = Writer(ptr::null_mut());
        told(unsafe { nlog_writer_new(&mut writer.0, path.as_ptr(), version) })?;
        writer.said(unsafe { nlog_writer_open(writer.0) })?;
        Ok(writer)
    }

    fn said(&self, status: u32) -> Result<(), Refusal> {
        let call = unsafe { nlog_writer_failed_call(self.0) };
        let call = (!call.is_null()).then(|| unsafe { CStr::from_ptr(call) }.to_string_lossy().into_owned());
        told(status).map_err(|refusal| Refusal(refusal.0, call))
    }

    pub fn record(&mut self, name: &[u8], entry: &Entry) -> Result<(), Refusal> {
        let status = unsafe { nlog_writer_record(self.0, name.as_ptr(), name.len(), entry) };
        self.said(status)
    }

    pub fn find(&mut self, name: &[u8]) -> Result<Option<Entry>, Refusal> {
        let mut entry = Entry::default();
        match unsafe { nlog_writer_find(self.0, name.as_ptr(), name.len(), &mut entry) } {
            NOT_FOUND => Ok(None),
            status => self.said(status).map(|()| Some(entry)),
        }
    }

    /// All that was recorded is on disk where this is Ok.
    pub fn close(self) -> Result<(), Refusal> {
        let status = unsafe { nlog_writer_close(self.0) };
        self.said(status)
    }
}

impl Drop for Writer {
    fn drop(&mut self) {
        unsafe { nlog_writer_free(&mut self.0) }
    }
}

fn main() -> Result<(), Refusal> {
    let path = env::args().nth(1).expect("the path of a log");
    let mut writer = Writer::open(&path, 0)?;
    if let Some(entry) = writer.find(b"a")? {
        println!("a {}", entry.mtime);
    }
    let hash = unsafe { nlog_command_hash(b"cc".as_ptr(), 2) };
    writer.record(b"out.o", &Entry { start_ms: 1, end_ms: 2, mtime: 7, hash })?;
    writer.close()?;
    let mut log = Log::load(&std::fs::read(&path).expect("the log"))?;
    if let Some(entry) = log.find(b"out.o") {
        println!("out.o {}", entry.mtime);
    }
    if let Err(refusal) = Log::load(b"no log\n") {
        println!("{refusal}");
    }
    Ok(())
}
