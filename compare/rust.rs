//! The Rust crate as published, compiled unchanged, with stand-ins for the files that it leans on and that are not at hand.
//! `datetime`, `template`, `jsonspec` and `copybook` always fail; none is needed by `decode_record`, `encode_record` and `Layout::from_fields`.
#![allow(dead_code)]

#[path = "../../shared/docs/src/crates/fixedformat-core/src/decode.rs"]
pub mod decode;
#[path = "../../shared/docs/src/crates/fixedformat-core/src/ebcdic.rs"]
pub mod ebcdic;
#[path = "../../shared/docs/src/crates/fixedformat-core/src/edited.rs"]
pub mod edited;
#[path = "../../shared/docs/src/crates/fixedformat-core/src/encode.rs"]
pub mod encode;
#[path = "../../shared/docs/src/crates/fixedformat-core/src/layout.rs"]
pub mod layout;
#[path = "../../shared/docs/src/crates/fixedformat-core/src/packed.rs"]
pub mod packed;
#[path = "../../shared/docs/src/crates/fixedformat-core/src/value.rs"]
pub mod value;
#[path = "../../shared/docs/src/crates/fixedformat-core/src/zoned.rs"]
pub mod zoned;

pub mod datetime {
    use crate::layout::DateTimeKind;
    use crate::{Error, Result, Value};
    pub fn parse(_: DateTimeKind, _: &str, _: &[u8], _: &str) -> Result<Value> {
        Err(Error("no dates".into()))
    }
    pub fn format(_: &Value, _: &str, _: usize, _: &str) -> Result<Vec<u8>> {
        Err(Error("no dates".into()))
    }
}
pub mod template {
    pub fn parse(_: &str) -> crate::Result<crate::Layout> {
        Err(crate::Error("no templates".into()))
    }
}
pub mod jsonspec {
    pub fn parse(_: &str) -> crate::Result<crate::Layout> {
        Err(crate::Error("no JSON".into()))
    }
}
pub mod copybook {
    pub fn parse(_: &str) -> crate::Result<crate::Layout> {
        Err(crate::Error("no copybooks".into()))
    }
}

pub use layout::{Endian, Field, FieldKind, Justify, Layout, NumRepr, SignKind};
pub use value::Value;

#[derive(Debug, Clone, PartialEq, Eq)]
pub struct Error(pub String);
pub type Result<T> = std::result::Result<T, Error>;

#[derive(Debug, Clone, Copy, PartialEq, Eq, Default)]
pub enum Encoding {
    #[default]
    Ascii,
    Ebcdic,
}
