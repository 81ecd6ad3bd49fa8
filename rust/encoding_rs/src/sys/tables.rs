//! Tables of indexes, which live as long as the process.

use super::raw;

/// Tables that were loaded. A copy is as good.
#[derive(Clone, Copy)]
pub(crate) struct Tables(pub(super) raw::Tables);

// SAFETY: the header says that tables never change, and that any number of threads may use them at once.
unsafe impl Send for Tables {}
// SAFETY: as above.
unsafe impl Sync for Tables {}

impl Tables {
    /// Loads index files, each by its name and its text. Panics if one has a fault, or if memory is refused.
    pub(crate) fn load(files: &[(&'static str, &'static [u8])]) -> Tables {
        let list: Vec<_> =
            files.iter().map(|(name, text)| raw::IndexFile { name: lent(name.as_bytes()), text: lent(text) }).collect();
        let mut tables = raw::Tables::default();
        let mut fault = raw::IndexFault::default();
        // SAFETY: the list and the texts live as long as the call, and `tables` begins empty.
        let status = unsafe { raw::jillapun_tables_new(list.as_ptr(), list.len(), &mut tables, &mut fault) };
        match status {
            raw::OK => Tables(tables),
            raw::NO_MEMORY => panic!("memory was refused for the tables of an encoding"),
            raw::BAD_INDEX => {
                panic!("{}, which the crate was built with: fault in line {}", files[fault.file].0, fault.line)
            }
            _ => panic!("the library loads no index: status {status}"),
        }
    }
}

fn lent(bytes: &'static [u8]) -> raw::Bytes {
    raw::Bytes { at: bytes.as_ptr(), len: bytes.len() }
}
