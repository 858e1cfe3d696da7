//! As much of SQLite as the join is timed beside, by its C interface. The library is looked for when the bench runs, so that the bench
//! can be built and run where there is none.
use simmerquilt::Pair;
use std::ffi::{c_char, c_int, c_void, CStr, CString};
use std::mem;
use std::ptr;

const LIBRARY: &CStr = c"libsqlite3.so.0";

pub const NOT_AT_HAND: &str = "libsqlite3.so.0 is not at hand (Debian has it in libsqlite3-0)";

const ROW: c_int = 100;
const DONE: c_int = 101;
/// `RTLD_NOW` of dlopen.
const NOW: c_int = 2;

type Handle = *mut c_void;

extern "C" {
    fn dlopen(name: *const c_char, flags: c_int) -> Handle;
    fn dlsym(library: Handle, name: *const c_char) -> *mut c_void;
}

/// The functions of sqlite3.h that are called here.
struct Calls {
    version: unsafe extern "C" fn() -> *const c_char,
    open: unsafe extern "C" fn(*const c_char, *mut Handle) -> c_int,
    close: unsafe extern "C" fn(Handle) -> c_int,
    message: unsafe extern "C" fn(Handle) -> *const c_char,
    prepare: unsafe extern "C" fn(Handle, *const c_char, c_int, *mut Handle, *mut *const c_char) -> c_int,
    finalize: unsafe extern "C" fn(Handle) -> c_int,
    step: unsafe extern "C" fn(Handle) -> c_int,
    reset: unsafe extern "C" fn(Handle) -> c_int,
    bind_number: unsafe extern "C" fn(Handle, c_int, i64) -> c_int,
    bind_bytes: unsafe extern "C" fn(Handle, c_int, *const c_void, c_int, *const c_void) -> c_int,
    number: unsafe extern "C" fn(Handle, c_int) -> i64,
}

impl Calls {
    fn load() -> Option<Calls> {
        // SAFETY: dlopen is given a name. It runs what the library does when it is loaded, which is nothing that concerns us.
        let library = unsafe { dlopen(LIBRARY.as_ptr(), NOW) };
        if library.is_null() {
            return None;
        }
        // SAFETY: the library is open and stays so, and each type above is that of the function's declaration in sqlite3.h.
        unsafe {
            Some(Calls {
                version: function(library, c"sqlite3_libversion")?,
                open: function(library, c"sqlite3_open")?,
                close: function(library, c"sqlite3_close")?,
                message: function(library, c"sqlite3_errmsg")?,
                prepare: function(library, c"sqlite3_prepare_v2")?,
                finalize: function(library, c"sqlite3_finalize")?,
                step: function(library, c"sqlite3_step")?,
                reset: function(library, c"sqlite3_reset")?,
                bind_number: function(library, c"sqlite3_bind_int64")?,
                bind_bytes: function(library, c"sqlite3_bind_blob")?,
                number: function(library, c"sqlite3_column_int64")?,
            })
        }
    }
}

/// A function of a library.
///
/// # Safety
///
/// The library is open, and `F` is the type of its function of this name.
unsafe fn function<F: Copy>(library: Handle, name: &CStr) -> Option<F> {
    assert_eq!(mem::size_of::<F>(), mem::size_of::<Handle>());
    // SAFETY: as the caller says.
    unsafe {
        let address = dlsym(library, name.as_ptr());
        (!address.is_null()).then(|| mem::transmute_copy(&address))
    }
}

/// A database in memory. What goes wrong in it ends the bench.
pub struct Database {
    calls: Calls,
    handle: Handle,
}

impl Database {
    /// An empty one, or none where there is no SQLite.
    pub fn at_hand() -> Option<Database> {
        let calls = Calls::load()?;
        let mut handle = ptr::null_mut();
        // SAFETY: the name ends in a byte 0, and the handle is ours to write.
        let opened = unsafe { (calls.open)(c":memory:".as_ptr(), &mut handle) };
        assert_eq!(opened, 0, "no database");
        Some(Database { calls, handle })
    }

    pub fn version(&self) -> String {
        // SAFETY: it is a text of SQLite's own that ends in a byte 0 and stays.
        unsafe { CStr::from_ptr((self.calls.version)()) }.to_string_lossy().into_owned()
    }

    /// Runs one statement that gives no rows.
    pub fn run(&self, sql: &str) {
        self.prepare(sql).finish();
    }

    /// Runs a statement for each station and its code.
    pub fn fill<'a>(&self, sql: &str, rows: impl Iterator<Item = (u32, &'a [u8])>) {
        let statement = self.prepare(sql);
        for (station, code) in rows {
            statement.bind(station, code);
            statement.finish();
        }
    }

    /// The pairs of numbers that a query gives, in place of what the list held.
    pub fn pairs(&self, sql: &str, pairs: &mut Vec<Pair>) {
        let statement = self.prepare(sql);
        pairs.clear();
        while statement.step() {
            pairs.push(Pair { first: statement.number(0), second: statement.number(1) });
        }
    }

    fn prepare(&self, sql: &str) -> Statement<'_> {
        let sql = CString::new(sql).expect("no byte 0");
        let mut handle = ptr::null_mut();
        // SAFETY: the database is open, the text ends in a byte 0, and the statement's handle is ours to write.
        let prepared = unsafe { (self.calls.prepare)(self.handle, sql.as_ptr(), -1, &mut handle, ptr::null_mut()) };
        self.expect(prepared == 0);
        Statement { database: self, handle }
    }

    fn expect(&self, done: bool) {
        // SAFETY: the database is open; its message ends in a byte 0 and is copied before the next call.
        assert!(done, "SQLite: {}", unsafe { CStr::from_ptr((self.calls.message)(self.handle)) }.to_string_lossy());
    }
}

impl Drop for Database {
    fn drop(&mut self) {
        // SAFETY: it is open, and no statement is left, since each borrows it.
        unsafe { (self.calls.close)(self.handle) };
    }
}

struct Statement<'a> {
    database: &'a Database,
    handle: Handle,
}

impl Statement<'_> {
    /// Whether there is a further row.
    fn step(&self) -> bool {
        // SAFETY: the statement is prepared and its database open, here and below.
        let stepped = unsafe { (self.database.calls.step)(self.handle) };
        self.database.expect(stepped == ROW || stepped == DONE);
        stepped == ROW
    }

    /// A column of the row that was stepped to.
    fn number(&self, column: c_int) -> u32 {
        // SAFETY: as above; a column that is not there is 0.
        unsafe { (self.database.calls.number)(self.handle, column) as u32 }
    }

    fn bind(&self, station: u32, code: &[u8]) {
        let length = c_int::try_from(code.len()).expect("a short code");
        // SAFETY: as above. The code is not copied, and stays until the statement has run and is bound again or ended.
        let bound = unsafe {
            let calls = &self.database.calls;
            (calls.bind_number)(self.handle, 1, station.into())
                | (calls.bind_bytes)(self.handle, 2, code.as_ptr().cast(), length, ptr::null())
        };
        self.database.expect(bound == 0);
    }

    /// Runs to the end and makes ready to run again.
    fn finish(&self) {
        while self.step() {}
        // SAFETY: as above.
        unsafe { (self.database.calls.reset)(self.handle) };
    }
}

impl Drop for Statement<'_> {
    fn drop(&mut self) {
        // SAFETY: as above, and it is not used again.
        unsafe { (self.database.calls.finalize)(self.handle) };
    }
}
