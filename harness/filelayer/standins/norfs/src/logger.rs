//! Logging lines: looked at by the compiler, never run.

#[macro_export]
macro_rules! silent {
    ($($words:tt)*) => {
        if false {
            let _ = format_args!($($words)*);
        }
    };
}

#[macro_export]
macro_rules! trace { ($($words:tt)*) => { $crate::silent!($($words)*) }; }
#[macro_export]
macro_rules! debug { ($($words:tt)*) => { $crate::silent!($($words)*) }; }
#[macro_export]
macro_rules! warn { ($($words:tt)*) => { $crate::silent!($($words)*) }; }
#[macro_export]
macro_rules! error { ($($words:tt)*) => { $crate::silent!($($words)*) }; }
