//! What schema.rs names of a generator that stays behind. Only the validators
//! of `Schema::parse` come here, and the oracle deserialises without them.

pub const NONE: &str = "NONE";
pub const INVALID: &str = "INVALID";

pub fn ora_name(name: &str) -> String {
    format!("ORA_METADATA_KEY_{name}")
}
