//! Stand-in for serde: `#[derive(Deserialize)]` takes the `#[serde(..)]` attributes and writes
//! nothing. Reading configurations from TOML is no part of the port.
use proc_macro::TokenStream;

#[proc_macro_derive(Deserialize, attributes(serde))]
pub fn deserialize(_item: TokenStream) -> TokenStream {
    TokenStream::new()
}
