//! Stand-in for the attribute `instrument`: the function as it stands.

use proc_macro::TokenStream;

#[proc_macro_attribute]
pub fn instrument(_settings: TokenStream, function: TokenStream) -> TokenStream {
    function
}
