//! A stand-in for log that says nothing.
#[macro_export]
macro_rules! warn {
    ($($t:tt)*) => {
        if false {
            let _ = format!($($t)*);
        }
    };
}
