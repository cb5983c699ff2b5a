//! The compiled finder and its wrapper, held to document 01: two references say what is right, and
//! every call is made in memory that lies between guards.

mod check;
mod lent;
mod random;
mod reference {
    pub mod brute;
    pub mod fast;
}
mod texts;

#[cfg(feature = "std")]
mod allocating;
mod damaged_calls;
mod every_text;
mod examples;
mod long_texts;
mod many_texts;
mod wrapper;
