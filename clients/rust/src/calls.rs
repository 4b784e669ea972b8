//! The calls of `clients/c/rudzkvano.h`, which says what each does. All unsafe code of the crate is here.
//!
//! A slice is never null, not even an empty one, and `&mut` has each handle and buffer for one call alone, as the header wants it.

use std::ffi::c_void;
use std::{iter, ptr, str};

pub const ROUND: i32 = 1;
pub const WAITING: i32 = 2;
pub const BAD_SCHEMA: i32 = -4;
pub const NO_KEY_COLUMN: i32 = -20;
pub const NOT_ASKED: i32 = -21;
/// In the place of a number of rows: the key has a fault.
pub const KEY_FAULT: u32 = u32::MAX;
/// The same of an outcome: its batch failed as a whole.
pub const BATCH_FAULT: u32 = u32::MAX - 1;
/// In the place of a number of columns: they are those of the row before.
pub const SAME_COLUMNS: u32 = u32::MAX;

#[derive(Default)]
#[repr(C)]
pub struct Fault {
    pub line: u64,
    pub column: u64,
    pub number: u32,
    pub in_bindings: u32,
}

#[derive(Default)]
#[repr(C)]
pub struct LoaderSizes {
    pub loaders: usize,
    pub bytes: usize,
}

#[derive(Default)]
#[repr(C)]
pub struct Sizes {
    pub orders: usize,
    pub keys: usize,
    pub texts: usize,
    pub bytes: usize,
    pub answer: usize,
    pub rounds: u64,
}

#[derive(Default)]
#[repr(C)]
pub struct LogSizes {
    pub batches: usize,
    pub keys: usize,
    pub texts: usize,
    pub bytes: usize,
}

#[derive(Default)]
#[repr(C)]
pub struct LoadSizes {
    pub keys: usize,
    pub rows: usize,
    pub texts: usize,
    pub bytes: usize,
    pub faults: usize,
    pub fault_bytes: usize,
}

/// Texts one after another, and where each ends.
#[derive(Default)]
pub struct Texts {
    pub ends: Vec<u32>,
    pub bytes: Vec<u8>,
}

/// Lists of keys: how many keys each list has, how many texts each key has, and the texts.
pub struct KeyLists {
    pub keys: Vec<u32>,
    pub lengths: Vec<u32>,
    pub texts: Texts,
}

/// The rows of some keys: the number of columns, for each key its number of rows or `KEY_FAULT`, and the texts. Keyed rows are in any order, counted
/// as those of one key, and `faults` are the places of the keys with a fault.
pub struct Reply {
    pub columns: usize,
    pub rows: Vec<u32>,
    pub faults: Vec<u32>,
    pub texts: Texts,
    pub is_keyed: bool,
}

/// The outcomes of loaded keys: for each key its number of rows or a fault, for each row its number of columns or that they are those of the row
/// before, the texts of the rows, and those of the faults.
pub struct Outcomes {
    pub rows: Vec<u32>,
    pub columns: Vec<u32>,
    pub texts: Texts,
    pub faults: Texts,
}

impl Texts {
    pub fn of_sizes(texts: usize, bytes: usize) -> Self {
        Self { ends: vec![0; texts], bytes: vec![0; bytes] }
    }

    pub fn extend<'a>(&mut self, texts: impl IntoIterator<Item = &'a str>) {
        for text in texts {
            self.bytes.extend_from_slice(text.as_bytes());
            self.ends.push(self.bytes.len() as u32);
        }
    }

    /// Whether all ends are numbers of 32 bits.
    pub fn fits(&self) -> bool {
        u32::try_from(self.bytes.len()).is_ok()
    }

    /// The texts, where the library wrote them.
    pub fn iter(&self) -> impl Iterator<Item = &str> {
        let whole = str::from_utf8(&self.bytes).expect("the library's texts are UTF-8");
        let starts = iter::once(0).chain(self.ends.iter().copied());
        starts.zip(&self.ends).map(move |(start, &end)| &whole[start as usize..end as usize])
    }
}

impl KeyLists {
    pub fn of_sizes(lists: usize, keys: usize, texts: usize, bytes: usize) -> Self {
        Self { keys: vec![0; lists], lengths: vec![0; keys], texts: Texts::of_sizes(texts, bytes) }
    }
}

impl Outcomes {
    pub fn of_sizes(sizes: &LoadSizes) -> Self {
        let LoadSizes { keys, rows, texts, bytes, faults, fault_bytes } = *sizes;
        Self {
            rows: vec![0; keys],
            columns: vec![0; rows],
            texts: Texts::of_sizes(texts, bytes),
            faults: Texts::of_sizes(faults, fault_bytes),
        }
    }
}

/// What holds a server, queries or a client, or nothing. It frees what it holds.
#[repr(C)]
pub struct Handle {
    at: *mut c_void,
}

// SAFETY: a handle may go to another thread between two calls.
unsafe impl Send for Handle {}

impl Drop for Handle {
    fn drop(&mut self) {
        // SAFETY: a handle is empty or as the calls left it.
        unsafe { rz_close(self) }
    }
}

extern "C" {
    fn rz_version() -> u32;
    fn rz_code_name(code: i32, bytes: *mut u8, bytes_len: usize) -> usize;
    fn rz_code_text(code: i32, bytes: *mut u8, bytes_len: usize) -> usize;
    fn rz_close(handle: &mut Handle);
    fn rz_open(
        server: &mut Handle,
        schema: *const u8,
        schema_len: usize,
        bindings: *const u8,
        bindings_len: usize,
        fault: &mut Fault,
    ) -> i32;
    fn rz_fault_text(
        fault: &Fault,
        schema: *const u8,
        schema_len: usize,
        bindings: *const u8,
        bindings_len: usize,
        bytes: *mut u8,
        bytes_len: usize,
    ) -> usize;
    fn rz_loaders_sizes(server: &mut Handle, sizes: &mut LoaderSizes) -> i32;
    fn rz_loaders(
        server: &mut Handle,
        kinds: *mut u32,
        kinds_len: usize,
        ends: *mut u32,
        ends_len: usize,
        bytes: *mut u8,
        bytes_len: usize,
    ) -> i32;
    fn rz_queries(server: &mut Handle, queries: &mut Handle) -> i32;
    fn rz_client(server: &mut Handle, client: &mut Handle, limits: *const u32, limits_len: usize) -> i32;
    fn rz_limit_answers(client: &mut Handle, bytes: usize) -> i32;
    fn rz_limit_work(client: &mut Handle, positions: usize) -> i32;
    fn rz_limit_rounds(client: &mut Handle, rounds: u32) -> i32;
    fn rz_restart(client: &mut Handle) -> i32;
    fn rz_begin(client: &mut Handle, queries: &mut Handle, line: *const u8, line_len: usize) -> i32;
    fn rz_begin_request(
        client: &mut Handle,
        queries: &mut Handle,
        query: *const u8,
        query_len: usize,
        operation: *const u8,
        operation_len: usize,
        variables: *const u8,
        variables_len: usize,
    ) -> i32;
    fn rz_cancel(client: &mut Handle) -> i32;
    fn rz_next(client: &mut Handle) -> i32;
    fn rz_sizes(client: &mut Handle, sizes: &mut Sizes) -> i32;
    fn rz_orders(
        client: &mut Handle,
        loaders: *mut u32,
        loaders_len: usize,
        keys: *mut u32,
        keys_len: usize,
        texts: *mut u32,
        texts_len: usize,
        ends: *mut u32,
        ends_len: usize,
        bytes: *mut u8,
        bytes_len: usize,
    ) -> i32;
    fn rz_take_rows(
        client: &mut Handle,
        order: usize,
        columns: usize,
        rows: *const u32,
        rows_len: usize,
        ends: *const u32,
        ends_len: usize,
        bytes: *const u8,
        bytes_len: usize,
    ) -> i32;
    fn rz_take_keyed_rows(
        client: &mut Handle,
        order: usize,
        columns: usize,
        rows: u32,
        faults: *const u32,
        faults_len: usize,
        ends: *const u32,
        ends_len: usize,
        bytes: *const u8,
        bytes_len: usize,
        row: &mut u32,
    ) -> i32;
    fn rz_take_failed(client: &mut Handle, order: usize, text: *const u8, text_len: usize) -> i32;
    fn rz_answer(client: &mut Handle, bytes: *mut u8, bytes_len: usize) -> i32;
    fn rz_begin_load(
        client: &mut Handle,
        loader: usize,
        texts: *const u32,
        texts_len: usize,
        ends: *const u32,
        ends_len: usize,
        bytes: *const u8,
        bytes_len: usize,
    ) -> i32;
    fn rz_load_sizes(client: &mut Handle, sizes: &mut LoadSizes) -> i32;
    fn rz_loaded(
        client: &mut Handle,
        rows: *mut u32,
        rows_len: usize,
        columns: *mut u32,
        columns_len: usize,
        ends: *mut u32,
        ends_len: usize,
        bytes: *mut u8,
        bytes_len: usize,
        fault_ends: *mut u32,
        fault_ends_len: usize,
        fault_bytes: *mut u8,
        fault_bytes_len: usize,
    ) -> i32;
    fn rz_prime(
        client: &mut Handle,
        loader: usize,
        key_ends: *const u32,
        key_ends_len: usize,
        key_bytes: *const u8,
        key_bytes_len: usize,
        columns: usize,
        rows: u32,
        ends: *const u32,
        ends_len: usize,
        bytes: *const u8,
        bytes_len: usize,
        primed: &mut u32,
    ) -> i32;
    fn rz_clear(
        client: &mut Handle,
        loader: usize,
        key_ends: *const u32,
        key_ends_len: usize,
        key_bytes: *const u8,
        key_bytes_len: usize,
        was_known: &mut u32,
    ) -> i32;
    fn rz_clear_all(client: &mut Handle, loader: usize) -> i32;
    fn rz_log_sizes(client: &mut Handle, loader: usize, sizes: &mut LogSizes) -> i32;
    fn rz_log(
        client: &mut Handle,
        loader: usize,
        rounds: *mut u32,
        rounds_len: usize,
        stored: *mut u32,
        stored_len: usize,
        keys: *mut u32,
        keys_len: usize,
        texts: *mut u32,
        texts_len: usize,
        ends: *mut u32,
        ends_len: usize,
        bytes: *mut u8,
        bytes_len: usize,
    ) -> i32;
}

/// The version of the library: 65536 * major + 256 * minor + patch.
pub fn version() -> u32 {
    // SAFETY: it only returns a number.
    unsafe { rz_version() }
}

/// The name of a code, and a few words on it.
pub fn words_on(code: i32) -> (String, String) {
    // SAFETY: the pointer and the length are those of one slice.
    let name = words(|bytes| unsafe { rz_code_name(code, bytes.as_mut_ptr(), bytes.len()) });
    let text = words(|bytes| unsafe { rz_code_text(code, bytes.as_mut_ptr(), bytes.len()) });
    (name, text)
}

/// What a fault of these texts says.
pub fn fault_text(fault: &Fault, schema: &[u8], bindings: &[u8]) -> String {
    let (schema_at, bindings_at) = (schema.as_ptr(), bindings.as_ptr());
    words(|bytes| unsafe { rz_fault_text(fault, schema_at, schema.len(), bindings_at, bindings.len(), bytes.as_mut_ptr(), bytes.len()) })
}

/// A text of which a call tells the length, and copies as much as there is room for.
fn words(call: impl Fn(&mut [u8]) -> usize) -> String {
    let mut bytes = vec![0; call(&mut [])];
    call(&mut bytes);
    String::from_utf8(bytes).expect("the library's texts are UTF-8")
}

/// Each call with slices for pointers and lengths. It returns the code.
///
/// SAFETY of all of them: each pointer and length is that of one slice, which lives as long as the call, and no slice that a call fills has
/// anything in common with another.
impl Handle {
    pub fn empty() -> Self {
        Self { at: ptr::null_mut() }
    }

    pub fn open(&mut self, schema: &[u8], bindings: &[u8], fault: &mut Fault) -> i32 {
        unsafe { rz_open(self, schema.as_ptr(), schema.len(), bindings.as_ptr(), bindings.len(), fault) }
    }

    pub fn loaders_sizes(&mut self, sizes: &mut LoaderSizes) -> i32 {
        unsafe { rz_loaders_sizes(self, sizes) }
    }

    pub fn loaders(&mut self, kinds: &mut [u32], texts: &mut Texts) -> i32 {
        let Texts { ends, bytes } = texts;
        unsafe { rz_loaders(self, kinds.as_mut_ptr(), kinds.len(), ends.as_mut_ptr(), ends.len(), bytes.as_mut_ptr(), bytes.len()) }
    }

    pub fn queries(&mut self, queries: &mut Self) -> i32 {
        unsafe { rz_queries(self, queries) }
    }

    pub fn client(&mut self, client: &mut Self, limits: &[u32]) -> i32 {
        unsafe { rz_client(self, client, limits.as_ptr(), limits.len()) }
    }

    pub fn limit_answers(&mut self, bytes: usize) -> i32 {
        unsafe { rz_limit_answers(self, bytes) }
    }

    pub fn limit_work(&mut self, positions: usize) -> i32 {
        unsafe { rz_limit_work(self, positions) }
    }

    pub fn limit_rounds(&mut self, rounds: u32) -> i32 {
        unsafe { rz_limit_rounds(self, rounds) }
    }

    pub fn restart(&mut self) -> i32 {
        unsafe { rz_restart(self) }
    }

    pub fn begin(&mut self, queries: &mut Self, line: &[u8]) -> i32 {
        unsafe { rz_begin(self, queries, line.as_ptr(), line.len()) }
    }

    pub fn begin_request(&mut self, queries: &mut Self, query: &str, operation: &str, variables: &str) -> i32 {
        let (query_at, operation_at, variables_at) = (query.as_ptr(), operation.as_ptr(), variables.as_ptr());
        unsafe { rz_begin_request(self, queries, query_at, query.len(), operation_at, operation.len(), variables_at, variables.len()) }
    }

    pub fn cancel(&mut self) -> i32 {
        unsafe { rz_cancel(self) }
    }

    pub fn next(&mut self) -> i32 {
        unsafe { rz_next(self) }
    }

    pub fn sizes(&mut self, sizes: &mut Sizes) -> i32 {
        unsafe { rz_sizes(self, sizes) }
    }

    pub fn orders(&mut self, loaders: &mut [u32], lists: &mut KeyLists) -> i32 {
        let KeyLists { keys, lengths, texts: Texts { ends, bytes } } = lists;
        unsafe {
            rz_orders(
                self,
                loaders.as_mut_ptr(),
                loaders.len(),
                keys.as_mut_ptr(),
                keys.len(),
                lengths.as_mut_ptr(),
                lengths.len(),
                ends.as_mut_ptr(),
                ends.len(),
                bytes.as_mut_ptr(),
                bytes.len(),
            )
        }
    }

    /// Keyed rows are those of `rz_take_keyed_rows`, which may write the number of a row.
    pub fn take_rows(&mut self, order: usize, reply: &Reply) -> i32 {
        let Reply { columns, rows, faults, texts: Texts { ends, bytes }, is_keyed } = reply;
        let (ends_at, ends_len, bytes_at, bytes_len) = (ends.as_ptr(), ends.len(), bytes.as_ptr(), bytes.len());
        if *is_keyed {
            let (faults_at, faults_len, mut row) = (faults.as_ptr(), faults.len(), 0);
            return unsafe {
                rz_take_keyed_rows(self, order, *columns, rows[0], faults_at, faults_len, ends_at, ends_len, bytes_at, bytes_len, &mut row)
            };
        }
        unsafe { rz_take_rows(self, order, *columns, rows.as_ptr(), rows.len(), ends_at, ends_len, bytes_at, bytes_len) }
    }

    pub fn take_failed(&mut self, order: usize, text: &str) -> i32 {
        unsafe { rz_take_failed(self, order, text.as_ptr(), text.len()) }
    }

    pub fn answer(&mut self, bytes: &mut [u8]) -> i32 {
        unsafe { rz_answer(self, bytes.as_mut_ptr(), bytes.len()) }
    }

    pub fn begin_load(&mut self, loader: usize, lengths: &[u32], texts: &Texts) -> i32 {
        let Texts { ends, bytes } = texts;
        unsafe { rz_begin_load(self, loader, lengths.as_ptr(), lengths.len(), ends.as_ptr(), ends.len(), bytes.as_ptr(), bytes.len()) }
    }

    pub fn load_sizes(&mut self, sizes: &mut LoadSizes) -> i32 {
        unsafe { rz_load_sizes(self, sizes) }
    }

    pub fn loaded(&mut self, outcomes: &mut Outcomes) -> i32 {
        let Outcomes { rows, columns, texts: Texts { ends, bytes }, faults } = outcomes;
        unsafe {
            rz_loaded(
                self,
                rows.as_mut_ptr(),
                rows.len(),
                columns.as_mut_ptr(),
                columns.len(),
                ends.as_mut_ptr(),
                ends.len(),
                bytes.as_mut_ptr(),
                bytes.len(),
                faults.ends.as_mut_ptr(),
                faults.ends.len(),
                faults.bytes.as_mut_ptr(),
                faults.bytes.len(),
            )
        }
    }

    /// The reply has the item of one key.
    pub fn prime(&mut self, loader: usize, key: &Texts, reply: &Reply, primed: &mut u32) -> i32 {
        let Reply { columns, rows, texts: Texts { ends, bytes }, .. } = reply;
        unsafe {
            rz_prime(
                self,
                loader,
                key.ends.as_ptr(),
                key.ends.len(),
                key.bytes.as_ptr(),
                key.bytes.len(),
                *columns,
                rows[0],
                ends.as_ptr(),
                ends.len(),
                bytes.as_ptr(),
                bytes.len(),
                primed,
            )
        }
    }

    pub fn clear(&mut self, loader: usize, key: &Texts, was_known: &mut u32) -> i32 {
        let Texts { ends, bytes } = key;
        unsafe { rz_clear(self, loader, ends.as_ptr(), ends.len(), bytes.as_ptr(), bytes.len(), was_known) }
    }

    pub fn clear_all(&mut self, loader: usize) -> i32 {
        unsafe { rz_clear_all(self, loader) }
    }

    pub fn log_sizes(&mut self, loader: usize, sizes: &mut LogSizes) -> i32 {
        unsafe { rz_log_sizes(self, loader, sizes) }
    }

    pub fn log(&mut self, loader: usize, rounds: &mut [u32], stored: &mut [u32], lists: &mut KeyLists) -> i32 {
        let KeyLists { keys, lengths, texts: Texts { ends, bytes } } = lists;
        unsafe {
            rz_log(
                self,
                loader,
                rounds.as_mut_ptr(),
                rounds.len(),
                stored.as_mut_ptr(),
                stored.len(),
                keys.as_mut_ptr(),
                keys.len(),
                lengths.as_mut_ptr(),
                lengths.len(),
                ends.as_mut_ptr(),
                ends.len(),
                bytes.as_mut_ptr(),
                bytes.len(),
            )
        }
    }
}
