//! Stand-in for the crate `bitcode`: its two derives, which add nothing.
use proc_macro::TokenStream;

/// Adds nothing.
#[proc_macro_derive(Encode)]
pub fn encode(_item: TokenStream) -> TokenStream {
    TokenStream::new()
}

/// Adds nothing.
#[proc_macro_derive(Decode)]
pub fn decode(_item: TokenStream) -> TokenStream {
    TokenStream::new()
}
