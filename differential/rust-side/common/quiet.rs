// The sources print before one unreachable! and warn about growth by 0: both are formatted and dropped.
#[allow(unused_macros)]
macro_rules! println {
    ($($t:tt)*) => {{ let _ = format!($($t)*); }};
}
#[allow(unused_macros)]
macro_rules! eprintln {
    ($($t:tt)*) => {{ let _ = format!($($t)*); }};
}
