// SPDX-License-Identifier: Apache-2.0 OR BSD-3-Clause
//! JSON values, which stand for those of Rattle in the tests of the proved readers and writers.
//!
//! The texts of tests are read, which have no escapes.
use crate::rattle::{AllocError, Global, Vec};
use alloc::string::{String, ToString};
use core::fmt;

/// The maximum nesting of a text.
const MOST_NESTED: u32 = 128;

/// A JSON value.
#[derive(Debug, PartialEq)]
pub enum Value {
    Null,
    Bool(bool),
    /// A whole number of 64 bits.
    Whole(u64),
    /// Any other number.
    Other(f64),
    String(String),
    Array(Vec<Value>),
    /// The fields of an object, in ascending order of names.
    Object(Fields),
}

/// The fields of an object, each with its name. Duplicate names are kept, so that a count of the
/// fields shows them.
pub type Fields = alloc::vec::Vec<(String, Value)>;

/// Defines calls that return the inner value of one kind.
macro_rules! inner {
    ($($name:ident: $kind:ident -> $inner:ty;)*) => {$(
        pub fn $name(&self) -> Option<&$inner> {
            match self {
                Value::$kind(inner) => Some(inner),
                _ => None,
            }
        }
    )*};
}

impl Value {
    inner! {
        as_whole: Whole -> u64;
        as_str: String -> str;
        as_array: Array -> Vec<Value>;
        as_object: Object -> Fields;
    }

    pub fn try_from_str(_alloc: Global, text: &str) -> Result<Value, AllocError> {
        Ok(Value::String(text.into()))
    }

    /// Returns the object with these fields, or the first error of a field.
    pub fn object<const N: usize>(
        fields: [(&str, Result<Value, AllocError>); N],
    ) -> Result<Value, AllocError> {
        let mut list = Fields::with_capacity(N);
        for (name, value) in fields {
            list.push((name.into(), value?));
        }
        Ok(Value::from(list))
    }

    pub fn is_null(&self) -> bool {
        matches!(self, Value::Null)
    }

    pub fn as_u64(&self) -> Option<u64> {
        self.as_whole().copied()
    }

    pub fn get(&self, name: &str) -> Option<&Value> {
        let mut fields = self.as_object()?.iter();
        fields.find(|field| field.0 == name).map(|field| &field.1)
    }

    /// Returns the value, and leaves `null`.
    pub fn take(&mut self) -> Value {
        core::mem::replace(self, Value::Null)
    }

    /// Returns the value at a path of field names and list indices, each after a `/`.
    pub fn pointer_mut(&mut self, path: &str) -> Option<&mut Value> {
        let mut steps = path.split('/').skip(1);
        steps.try_fold(self, |value, step| match value {
            Value::Object(fields) => {
                let mut fields = fields.iter_mut();
                let found = fields.find(|field| field.0 == step);
                found.map(|field| &mut field.1)
            }
            Value::Array(items) => items.get_mut(step.parse::<usize>().ok()?),
            _ => None,
        })
    }

    /// Returns the value of a text.
    pub fn from_str(_alloc: Global, text: &str) -> Result<Value, NotJson> {
        let mut rest = text;
        let value = parse(&mut rest, MOST_NESTED)?;
        rest.trim_start().is_empty().then_some(value).ok_or(NotJson)
    }
}

impl From<u64> for Value {
    fn from(number: u64) -> Value {
        Value::Whole(number)
    }
}

impl From<u32> for Value {
    fn from(number: u32) -> Value {
        Value::from(u64::from(number))
    }
}

impl From<Vec<Value>> for Value {
    fn from(items: Vec<Value>) -> Value {
        Value::Array(items)
    }
}

impl From<Fields> for Value {
    /// Sorts the fields. It does not allocate.
    fn from(mut fields: Fields) -> Value {
        fields.sort_unstable_by(|one, other| one.0.cmp(&other.0));
        Value::Object(fields)
    }
}

/// Writes JSON without blanks.
impl fmt::Display for Value {
    fn fmt(&self, f: &mut fmt::Formatter<'_>) -> fmt::Result {
        match self {
            Value::Null => f.write_str("null"),
            Value::Bool(truth) => write!(f, "{truth}"),
            Value::Whole(number) => write!(f, "{number}"),
            Value::Other(number) => write!(f, "{number:?}"),
            Value::String(text) => write!(f, "{text:?}"),
            Value::Array(items) => write!(f, "[{}]", joined(items.iter().map(Value::to_string))),
            Value::Object(fields) => {
                let fields = fields.iter();
                let fields = fields.map(|(name, value)| alloc::format!("{name:?}:{value}"));
                write!(f, "{{{}}}", joined(fields))
            }
        }
    }
}

fn joined(parts: impl Iterator<Item = String>) -> String {
    parts.collect::<alloc::vec::Vec<_>>().join(",")
}

/// The text is not JSON, or is nested too deep.
#[derive(Debug)]
pub struct NotJson;

/// Parses the value at the start of a text, and removes it there.
fn parse(rest: &mut &str, levels: u32) -> Result<Value, NotJson> {
    let levels = levels.checked_sub(1).ok_or(NotJson)?;
    *rest = rest.trim_start();
    match rest.as_bytes().first() {
        Some(b'{') => parse_list(rest, "}", |rest| {
            let name = parse_text(rest)?;
            skip(rest, ":")?;
            Ok((name, parse(rest, levels)?))
        })
        .map(|fields| Value::from(Fields::from(fields))),
        Some(b'[') => parse_list(rest, "]", |rest| parse(rest, levels)).map(Value::Array),
        Some(b'"') => parse_text(rest).map(Value::String),
        Some(b'n') => skip(rest, "null").map(|()| Value::Null),
        Some(b't') => skip(rest, "true").map(|()| Value::Bool(true)),
        Some(b'f') => skip(rest, "false").map(|()| Value::Bool(false)),
        _ => parse_number(rest),
    }
}

/// Skips blanks and a mark, which must be next.
fn skip(rest: &mut &str, mark: &str) -> Result<(), NotJson> {
    *rest = rest.trim_start().strip_prefix(mark).ok_or(NotJson)?;
    Ok(())
}

/// Parses the items behind an opening bracket, up to its closing bracket.
fn parse_list<T>(
    rest: &mut &str,
    close: &str,
    item: impl Fn(&mut &str) -> Result<T, NotJson>,
) -> Result<Vec<T>, NotJson> {
    let mut items = Vec::new(Global);
    *rest = &rest[1..];
    while skip(rest, close).is_err() {
        if !items.is_empty() {
            skip(rest, ",")?;
        }
        items.push(item(rest)?).map_err(|_| NotJson)?;
    }
    Ok(items)
}

fn parse_text(rest: &mut &str) -> Result<String, NotJson> {
    skip(rest, "\"")?;
    let (text, behind) = rest.split_once('"').ok_or(NotJson)?;
    *rest = behind;
    Ok(text.into())
}

fn parse_number(rest: &mut &str) -> Result<Value, NotJson> {
    let behind = rest.trim_start_matches(|letter| "+-.0123456789Ee".contains(letter));
    let number = &rest[..rest.len() - behind.len()];
    *rest = behind;
    match (number.parse(), number.parse()) {
        (Ok(whole), _) => Ok(Value::Whole(whole)),
        (_, Ok(other)) => Ok(Value::Other(other)),
        _ => Err(NotJson),
    }
}

/// Creates an object.
///
/// `json!(in alloc; {"name": value, ..})` moves the values into its fields.
macro_rules! json {
    (in $alloc:expr; {$($fields:tt)*}) => {{
        let _: $crate::rattle::Global = $alloc;
        $crate::value::json!(@object [] $($fields)*)
    }};
    (@object [$($done:tt)*]) => { $crate::value::Value::object([$($done)*]) };
    (@object [$($done:tt)*] $name:tt: {$($fields:tt)*} $(, $($rest:tt)*)?) => {
        $crate::value::json!(@object
            [$($done)* ($name, $crate::value::json!(@object [] $($fields)*)),] $($($rest)*)?)
    };
    (@object [$($done:tt)*] $name:tt: $value:expr $(, $($rest:tt)*)?) => {
        $crate::value::json!(@object [$($done)* ($name, Ok($crate::value::Value::from($value))),] $($($rest)*)?)
    };
}

pub(crate) use json;
