//! In place of js-sys: an error that holds nothing. No JavaScript is called here.

use wasm_bindgen::JsValue;

pub struct Error;

impl Error {
    pub fn new(_: &str) -> Error {
        Error
    }
}

impl From<Error> for JsValue {
    fn from(_: Error) -> JsValue {
        JsValue
    }
}

pub struct Reflect;

impl Reflect {
    pub fn set(_: &Error, _: &JsValue, _: &JsValue) -> Result<bool, JsValue> {
        Ok(true)
    }
}
