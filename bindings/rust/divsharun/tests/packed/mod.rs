// SPDX-License-Identifier: Apache-2.0 OR BSD-3-Clause
//! A format without names, like bincode.
//!
//! Numbers are little endian. A list starts with its length, a variant is its index, and an option
//! starts with one byte. The reader takes bytes from an iterator, so they do not have to exist
//! before.
#![allow(dead_code)]

use serde::de::{DeserializeSeed, EnumAccess, IntoDeserializer, SeqAccess, VariantAccess, Visitor};
use serde::ser::{Impossible, SerializeSeq, SerializeStruct};
use serde::{de, ser, Deserialize, Deserializer, Serialize, Serializer};
use std::cell::RefCell;
use std::fmt::{self, Display};

thread_local! {
    // The names of the current call of `names_in`.
    static NAMES: RefCell<Option<Vec<&'static str>>> = const { RefCell::new(None) };
}

/// Runs a call. Returns the names of the structures and states that it wrote or read, in order. A
/// name comes before those of its parts.
pub fn names_in<T>(call: impl FnOnce() -> T) -> Vec<&'static str> {
    NAMES.set(Some(Vec::new()));
    call();
    NAMES.take().expect("no call of it is nested in another")
}

fn note(name: &'static str) {
    NAMES.with_borrow_mut(|names| names.iter_mut().for_each(|names| names.push(name)));
}

/// Returns the bytes of an object.
pub fn to_bytes<T: Serialize>(object: &T) -> Result<Vec<u8>, Failure> {
    let mut bytes = Vec::new();
    to_bytes_in(object, &mut bytes)?;
    Ok(bytes)
}

/// Writes the bytes of an object to a list instead of what is there.
pub fn to_bytes_in<T: Serialize>(object: &T, bytes: &mut Vec<u8>) -> Result<(), Failure> {
    bytes.clear();
    object.serialize(Packer(bytes))
}

/// Returns the object that the next bytes encode.
pub fn from_bytes<'de, T: Deserialize<'de>>(
    bytes: impl IntoIterator<Item = u8>,
) -> Result<T, Failure> {
    T::deserialize(&mut Unpacker(bytes.into_iter()))
}

/// The error of writing or reading.
#[derive(Debug)]
pub struct Failure(pub String);

impl Display for Failure {
    fn fmt(&self, f: &mut fmt::Formatter<'_>) -> fmt::Result {
        f.write_str(&self.0)
    }
}

impl std::error::Error for Failure {}

impl ser::Error for Failure {
    fn custom<T: Display>(reason: T) -> Self {
        Failure(reason.to_string())
    }
}

impl de::Error for Failure {
    fn custom<T: Display>(reason: T) -> Self {
        Failure(reason.to_string())
    }
}

struct Packer<'a>(&'a mut Vec<u8>);

impl Packer<'_> {
    fn put(self, bytes: &[u8]) -> Result<(), Failure> {
        self.0.extend_from_slice(bytes);
        Ok(())
    }
}

/// The serializer methods that no saved object needs.
macro_rules! not_packed {
    ($($method:ident($($kind:ty),*) -> $answer:ty;)*) => {$(
        fn $method(self $(, _: $kind)*) -> Result<$answer, Failure> {
            Err(Failure(stringify!($method).into()))
        }
    )*};
}

type Never = Impossible<(), Failure>;

impl<'a> Serializer for Packer<'a> {
    type Ok = ();
    type Error = Failure;
    type SerializeSeq = Self;
    type SerializeStruct = PackedFields<'a>;
    type SerializeTuple = Self;
    type SerializeTupleStruct = Never;
    type SerializeTupleVariant = Never;
    type SerializeMap = Never;
    type SerializeStructVariant = Never;

    fn is_human_readable(&self) -> bool {
        false
    }

    fn serialize_u32(self, number: u32) -> Result<(), Failure> {
        self.put(&number.to_le_bytes())
    }

    fn serialize_u64(self, number: u64) -> Result<(), Failure> {
        self.put(&number.to_le_bytes())
    }

    fn serialize_none(self) -> Result<(), Failure> {
        self.put(&[0])
    }

    fn serialize_some<T: Serialize + ?Sized>(self, some: &T) -> Result<(), Failure> {
        self.0.push(1);
        some.serialize(self)
    }

    fn serialize_unit_variant(
        self,
        name: &'static str,
        place: u32,
        variant: &'static str,
    ) -> Result<(), Failure> {
        note(name);
        note(variant);
        self.put(&place.to_le_bytes())
    }

    fn serialize_seq(self, length: Option<usize>) -> Result<Self, Failure> {
        let length = length.ok_or_else(|| Failure("a list without a length".into()))?;
        self.0.extend_from_slice(&(length as u64).to_le_bytes());
        Ok(self)
    }

    fn serialize_tuple(self, _: usize) -> Result<Self, Failure> {
        Ok(self)
    }

    fn serialize_struct(
        self,
        name: &'static str,
        left: usize,
    ) -> Result<PackedFields<'a>, Failure> {
        note(name);
        Ok(PackedFields { to: self.0, left })
    }

    fn serialize_newtype_struct<T: Serialize + ?Sized>(
        self,
        _: &'static str,
        _: &T,
    ) -> Result<(), Failure> {
        Err(Failure("a wrapper".into()))
    }

    fn serialize_newtype_variant<T: Serialize + ?Sized>(
        self,
        _: &'static str,
        _: u32,
        _: &'static str,
        _: &T,
    ) -> Result<(), Failure> {
        Err(Failure("a variant with content".into()))
    }

    not_packed! {
        serialize_bool(bool) -> ();
        serialize_i8(i8) -> ();
        serialize_i16(i16) -> ();
        serialize_i32(i32) -> ();
        serialize_i64(i64) -> ();
        serialize_u8(u8) -> ();
        serialize_u16(u16) -> ();
        serialize_f32(f32) -> ();
        serialize_f64(f64) -> ();
        serialize_char(char) -> ();
        serialize_str(&str) -> ();
        serialize_bytes(&[u8]) -> ();
        serialize_unit() -> ();
        serialize_unit_struct(&'static str) -> ();
        serialize_tuple_struct(&'static str, usize) -> Never;
        serialize_tuple_variant(&'static str, u32, &'static str, usize) -> Never;
        serialize_map(Option<usize>) -> Never;
        serialize_struct_variant(&'static str, u32, &'static str, usize) -> Never;
    }
}

impl SerializeSeq for Packer<'_> {
    type Ok = ();
    type Error = Failure;

    fn serialize_element<T: Serialize + ?Sized>(&mut self, item: &T) -> Result<(), Failure> {
        item.serialize(Packer(self.0))
    }

    fn end(self) -> Result<(), Failure> {
        Ok(())
    }
}

impl ser::SerializeTuple for Packer<'_> {
    type Ok = ();
    type Error = Failure;

    fn serialize_element<T: Serialize + ?Sized>(&mut self, item: &T) -> Result<(), Failure> {
        item.serialize(Packer(self.0))
    }

    fn end(self) -> Result<(), Failure> {
        Ok(())
    }
}

/// The fields of a structure, and the number of announced fields that remain.
struct PackedFields<'a> {
    to: &'a mut Vec<u8>,
    left: usize,
}

impl SerializeStruct for PackedFields<'_> {
    type Ok = ();
    type Error = Failure;

    fn serialize_field<T: Serialize + ?Sized>(
        &mut self,
        _: &'static str,
        field: &T,
    ) -> Result<(), Failure> {
        let left = self.left.checked_sub(1);
        self.left = left.ok_or_else(|| Failure("a field too many".into()))?;
        field.serialize(Packer(self.to))
    }

    fn end(self) -> Result<(), Failure> {
        match self.left {
            0 => Ok(()),
            _ => Err(Failure("a field is missing".into())),
        }
    }
}

struct Unpacker<I>(I);

impl<I: Iterator<Item = u8>> Unpacker<I> {
    fn take<const N: usize>(&mut self) -> Result<[u8; N], Failure> {
        let mut bytes = [0; N];
        for byte in &mut bytes {
            *byte = self
                .0
                .next()
                .ok_or_else(|| Failure("no more bytes".into()))?;
        }
        Ok(bytes)
    }
}

impl<'de, I: Iterator<Item = u8>> Deserializer<'de> for &mut Unpacker<I> {
    type Error = Failure;

    fn is_human_readable(&self) -> bool {
        false
    }

    fn deserialize_any<V: Visitor<'de>>(self, _: V) -> Result<V::Value, Failure> {
        Err(Failure("bytes do not say what they are".into()))
    }

    fn deserialize_u32<V: Visitor<'de>>(self, visitor: V) -> Result<V::Value, Failure> {
        visitor.visit_u32(u32::from_le_bytes(self.take()?))
    }

    fn deserialize_u64<V: Visitor<'de>>(self, visitor: V) -> Result<V::Value, Failure> {
        visitor.visit_u64(u64::from_le_bytes(self.take()?))
    }

    fn deserialize_option<V: Visitor<'de>>(self, visitor: V) -> Result<V::Value, Failure> {
        match self.take()? {
            [0] => visitor.visit_none(),
            [1] => visitor.visit_some(self),
            _ => Err(Failure("neither something nor nothing".into())),
        }
    }

    fn deserialize_seq<V: Visitor<'de>>(self, visitor: V) -> Result<V::Value, Failure> {
        let left = u64::from_le_bytes(self.take()?);
        visitor.visit_seq(Items { from: self, left })
    }

    fn deserialize_tuple<V: Visitor<'de>>(
        self,
        length: usize,
        visitor: V,
    ) -> Result<V::Value, Failure> {
        let left = length as u64;
        visitor.visit_seq(Items { from: self, left })
    }

    fn deserialize_struct<V: Visitor<'de>>(
        self,
        name: &'static str,
        names: &'static [&'static str],
        visitor: V,
    ) -> Result<V::Value, Failure> {
        note(name);
        self.deserialize_tuple(names.len(), visitor)
    }

    fn deserialize_enum<V: Visitor<'de>>(
        self,
        name: &'static str,
        variants: &'static [&'static str],
        visitor: V,
    ) -> Result<V::Value, Failure> {
        let place = u32::from_le_bytes(self.take()?);
        note(name);
        note(variants.get(place as usize).unwrap_or(&"none"));
        visitor.visit_enum(Place(place))
    }

    serde::forward_to_deserialize_any! {
        bool i8 i16 i32 i64 u8 u16 f32 f64 char str string bytes byte_buf unit unit_struct
        newtype_struct tuple_struct map identifier ignored_any
    }
}

/// The remaining items of a list.
struct Items<'a, I> {
    from: &'a mut Unpacker<I>,
    left: u64,
}

impl<'de, I: Iterator<Item = u8>> SeqAccess<'de> for Items<'_, I> {
    type Error = Failure;

    fn next_element_seed<T: DeserializeSeed<'de>>(
        &mut self,
        seed: T,
    ) -> Result<Option<T::Value>, Failure> {
        let Some(left) = self.left.checked_sub(1) else {
            return Ok(None);
        };
        self.left = left;
        seed.deserialize(&mut *self.from).map(Some)
    }

    fn size_hint(&self) -> Option<usize> {
        usize::try_from(self.left).ok()
    }
}

/// The index of a variant without content.
struct Place(u32);

impl<'de> EnumAccess<'de> for Place {
    type Error = Failure;
    type Variant = Self;

    fn variant_seed<V: DeserializeSeed<'de>>(self, seed: V) -> Result<(V::Value, Self), Failure> {
        let place: de::value::U32Deserializer<Failure> = self.0.into_deserializer();
        Ok((seed.deserialize(place)?, self))
    }
}

impl<'de> VariantAccess<'de> for Place {
    type Error = Failure;

    fn unit_variant(self) -> Result<(), Failure> {
        Ok(())
    }

    fn newtype_variant_seed<T: DeserializeSeed<'de>>(self, _: T) -> Result<T::Value, Failure> {
        Err(Failure("a variant with content".into()))
    }

    fn tuple_variant<V: Visitor<'de>>(self, _: usize, _: V) -> Result<V::Value, Failure> {
        Err(Failure("a variant with content".into()))
    }

    fn struct_variant<V: Visitor<'de>>(
        self,
        _: &'static [&'static str],
        _: V,
    ) -> Result<V::Value, Failure> {
        Err(Failure("a variant with content".into()))
    }
}
