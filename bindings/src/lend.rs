//! Calls of proved functions on slices that a struct holds.

/// Calls a function with the values before the slices, the slices as pointers and lengths, and the values after them. With `&` nothing is written.
macro_rules! call {
    ($function:ident[$($first:expr),*]($lent:ident: $($slice:ident),*)[$($last:expr),*]) => {
        // any values and any contents are taken, and each length is the slice's own
        unsafe {
            $function($($first,)* $($lent.$slice.as_mut_ptr(), $lent.$slice.len(),)* $($last),*)
        }
    };
    ($function:ident[$($first:expr),*](&$lent:ident: $($slice:ident),*)[$($last:expr),*]) => {
        unsafe {
            $function($($first,)* $($lent.$slice.as_ptr(), $lent.$slice.len(),)* $($last),*)
        }
    };
}
