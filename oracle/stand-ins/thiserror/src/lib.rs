//! Stands for the crate `thiserror`: its derive is accepted and makes nothing, since no answer holds an error's text.
use proc_macro::TokenStream;

#[proc_macro_derive(Error, attributes(error))]
pub fn error(_: TokenStream) -> TokenStream {
    TokenStream::new()
}
