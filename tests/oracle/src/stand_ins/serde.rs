//! Stand-in for the crate `serde`: its two derives, which add nothing.
use proc_macro::TokenStream;

/// Adds nothing.
#[proc_macro_derive(Serialize)]
pub fn serialize(_item: TokenStream) -> TokenStream {
    TokenStream::new()
}

/// Adds nothing.
#[proc_macro_derive(Deserialize)]
pub fn deserialize(_item: TokenStream) -> TokenStream {
    TokenStream::new()
}
