//! Stand-in for the crate `bon`: its derive accepts the published attributes and adds nothing.
//! The comparisons build `LSODA` field by field.

use proc_macro::TokenStream;

#[proc_macro_derive(Builder, attributes(builder))]
pub fn builder(_: TokenStream) -> TokenStream {
    TokenStream::new()
}
