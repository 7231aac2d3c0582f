//! The paper's numbers that an operation can return.

pub const DONE: u8 = 0;
pub const NOT_FORMATTED: u8 = 1;
pub const FS_CORRUPTED: u8 = 2;
pub const IO: u8 = 3;
pub const INVALID_OPERATION: u8 = 4;
pub const INSUFFICIENT_SPACE: u8 = 5;
pub const BAD_GEOMETRY: u8 = 6;
pub const BAD_ROOM: u8 = 7;
pub const POWER_LOST: u8 = 8;
pub const RUST_PANIC: u8 = 9;
pub const NOT_ERASED: u8 = 10;
pub const NOT_FOUND: u8 = 13;
pub const DANGLING: u8 = 14;

pub const NAMES: [(u8, &str); 13] = [
    (DONE, "done"),
    (NOT_FORMATTED, "NotFormatted"),
    (FS_CORRUPTED, "FsCorrupted"),
    (IO, "Io"),
    (INVALID_OPERATION, "InvalidOperation"),
    (INSUFFICIENT_SPACE, "InsufficientSpace"),
    (BAD_GEOMETRY, "BadGeometry"),
    (BAD_ROOM, "BadRoom"),
    (POWER_LOST, "PowerLost"),
    (RUST_PANIC, "RustPanic"),
    (NOT_ERASED, "NotErased"),
    (NOT_FOUND, "NotFound"),
    (DANGLING, "Dangling"),
];

/// The number with its name.
pub fn show(number: u8) -> String {
    let name = NAMES.iter().find(|(named, _)| *named == number).map_or("(no such number)", |(_, name)| name);
    format!("{number} {name}")
}
