//! Stands for `docsplay`: a `Display` for the one type that derives it.

use proc_macro::TokenStream;

#[proc_macro_derive(Display)]
pub fn display(_: TokenStream) -> TokenStream {
    "impl core::fmt::Display for StorageError {
        fn fmt(&self, f: &mut core::fmt::Formatter<'_>) -> core::fmt::Result { write!(f, \"{self:?}\") }
    }"
    .parse()
    .unwrap()
}
