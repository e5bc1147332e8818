//! In place of serde-wasm-bindgen: every value becomes the empty one.

use wasm_bindgen::JsValue;

pub fn to_value<T>(_: &T) -> Result<JsValue, ()> {
    Ok(JsValue)
}
