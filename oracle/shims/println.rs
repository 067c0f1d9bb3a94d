// `println!` that prints nothing: the console is no part of the comparison.

macro_rules! println {
    ($($text:tt)*) => {{
        let _ = format_args!($($text)*);
    }};
}
