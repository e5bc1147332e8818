//! In place of wasm-bindgen: a value that holds nothing. No JavaScript is called here.

pub struct JsValue;

impl JsValue {
    pub const NULL: JsValue = JsValue;

    pub fn from_str(_: &str) -> JsValue {
        JsValue
    }
}
