//! What a user would take instead: SQLite in memory by its C library. One table holds a sensor's readings, one in a row, in the order in which they came; its
//! statements are prepared once. Built where bench/run finds the library.
use std::ffi::CStr;
use std::os::raw::{c_char, c_int, c_void};
use std::ptr::{null, null_mut};

/// A database or a statement of SQLite's.
type Handle = *mut c_void;

extern "C" {
    fn sqlite3_libversion() -> *const c_char;
    fn sqlite3_open_v2(file: *const c_char, database: *mut Handle, flags: c_int, system: *const c_char) -> c_int;
    fn sqlite3_close(database: Handle) -> c_int;
    fn sqlite3_prepare_v2(
        database: Handle,
        text: *const c_char,
        length: c_int,
        statement: *mut Handle,
        rest: *mut *const c_char,
    ) -> c_int;
    fn sqlite3_bind_int64(statement: Handle, parameter: c_int, number: i64) -> c_int;
    fn sqlite3_step(statement: Handle) -> c_int;
    fn sqlite3_column_int64(statement: Handle, column: c_int) -> i64;
    fn sqlite3_reset(statement: Handle) -> c_int;
    fn sqlite3_finalize(statement: Handle) -> c_int;
}

const IN_MEMORY: &[u8] = b":memory:\0";
const OK: c_int = 0;
const ROW: c_int = 100;
const DONE: c_int = 101;
/// READWRITE, CREATE, and NOMUTEX: there is one thread, so no call need lock anything.
const FLAGS: c_int = 0x2 | 0x4 | 0x8000;

// SAFETY, of all here: a Database and its Statements are what SQLite handed out, in use until they are dropped, by one thread; the file's name ends with 0, and a
// statement's text goes with its length.
struct Database(Handle);

impl Database {
    fn in_memory() -> Database {
        let mut database = null_mut();
        let answer = unsafe { sqlite3_open_v2(IN_MEMORY.as_ptr().cast(), &mut database, FLAGS, null()) };
        assert_eq!(answer, OK, "SQLite opens no database");
        Database(database)
    }

    fn prepared(&self, text: &str) -> Statement {
        let mut statement = null_mut();
        let (start, length) = (text.as_ptr().cast(), text.len() as c_int);
        let answer = unsafe { sqlite3_prepare_v2(self.0, start, length, &mut statement, null_mut()) };
        assert_eq!(answer, OK, "SQLite does not take: {text}");
        Statement(statement)
    }
}

impl Drop for Database {
    fn drop(&mut self) {
        unsafe { sqlite3_close(self.0) };
    }
}

struct Statement(Handle);

impl Statement {
    fn bind(&self, parameter: c_int, number: i64) {
        let answer = unsafe { sqlite3_bind_int64(self.0, parameter, number) };
        assert_eq!(answer, OK);
    }

    /// The next row's reading.
    fn reading(&self) -> u32 {
        let answer = unsafe { sqlite3_step(self.0) };
        assert_eq!(answer, ROW);
        unsafe { sqlite3_column_int64(self.0, 0) as u32 }
    }

    fn reset(&self) {
        let answer = unsafe { sqlite3_reset(self.0) };
        assert_eq!(answer, OK);
    }

    /// A statement without rows.
    fn run(&self) {
        let answer = unsafe { sqlite3_step(self.0) };
        assert_eq!(answer, DONE);
        self.reset();
    }
}

impl Drop for Statement {
    fn drop(&mut self) {
        unsafe { sqlite3_finalize(self.0) };
    }
}

/// The readings. The statements come first, for they are dropped first.
pub struct Readings {
    append: Statement,
    read: Statement,
    scan: Statement,
    replace: Statement,
    shorten: Statement,
    begin: Statement,
    commit: Statement,
    _database: Database,
}

impl Readings {
    pub fn new(readings: &[u32]) -> Readings {
        let database = Database::in_memory();
        database.prepared("CREATE TABLE reading (value INTEGER)").run();
        let table = Readings {
            append: database.prepared("INSERT INTO reading (value) VALUES (?1)"),
            read: database.prepared("SELECT value FROM reading WHERE rowid = ?1"),
            scan: database.prepared("SELECT value FROM reading WHERE rowid >= ?1 ORDER BY rowid"),
            replace: database.prepared("UPDATE reading SET value = ?2 WHERE rowid = ?1"),
            shorten: database.prepared("DELETE FROM reading WHERE rowid > ?1"),
            begin: database.prepared("BEGIN"),
            commit: database.prepared("COMMIT"),
            _database: database,
        };
        table.append_all(readings);
        table
    }

    /// In a transaction of its own.
    pub fn append(&self, number: u32) {
        self.append.bind(1, number.into());
        self.append.run();
    }

    /// All in one transaction.
    pub fn append_all(&self, numbers: &[u32]) {
        self.begin.run();
        numbers.iter().for_each(|&number| self.append(number));
        self.commit.run();
    }

    /// The rows from a number on, the first row's being 1, in one transaction.
    pub fn replace_all(&self, first: u32, numbers: &[u32]) {
        self.begin.run();
        for (row, &number) in (first..).zip(numbers) {
            self.replace.bind(1, row.into());
            self.replace.bind(2, number.into());
            self.replace.run();
        }
        self.commit.run();
    }

    pub fn read(&self, row: u32) -> u32 {
        self.read.bind(1, row.into());
        let reading = self.read.reading();
        self.read.reset();
        reading
    }

    /// Fills a list from a row on.
    pub fn scan(&self, first: u32, list: &mut [u32]) {
        self.scan.bind(1, first.into());
        list.iter_mut().for_each(|number| *number = self.scan.reading());
        self.scan.reset();
    }

    /// Only so many rows stay.
    pub fn shorten(&self, rows: u32) {
        self.shorten.bind(1, rows.into());
        self.shorten.run();
    }
}

/// Which SQLite is linked.
pub fn version() -> String {
    unsafe { CStr::from_ptr(sqlite3_libversion()) }.to_string_lossy().into_owned()
}
