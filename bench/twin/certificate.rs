//! A certificate, each of whose contents is kept as bytes that nothing is read in.
use picky_der_core::Result;
use picky_der_core::asn1::{Asn1SetOf, ExplicitContextTag, ImplicitContextTag, Tag};
use picky_der_core::misc::{ReadExt, WriteExt};
use picky_der_de::{Begins, Deserialize, DeserializeMember, DeserializeMembers, Deserializer, Struct, deserialize_struct_as};
use picky_der_ser::{DefaultOf, Defaulted, DefaultedRef, Optional, OptionalRef, Serialize, SerializeMembers, Serializer};
use rattle_std::prelude::*;

/// The content under a universal tag.
#[derive(PartialEq)]
pub struct Content<const TAG: u8>(Vec<u8>);

impl<const TAG: u8> Serialize for Content<TAG> {
    fn serialize<W: WriteExt>(&self, serializer: &mut Serializer<W>) -> Result<usize> {
        serializer.serialize_tagged_bytes(Tag::from(TAG), &self.0)
    }
}

impl<const TAG: u8> Deserialize for Content<TAG> {
    fn deserialize<R: ReadExt>(deserializer: &mut Deserializer<R>) -> Result<Content<TAG>> {
        Ok(Content(deserializer.deserialize_tagged_bytes(Tag::from(TAG))?))
    }
}

/// An element of any type.
#[derive(PartialEq)]
pub struct Raw(Vec<u8>);

impl Serialize for Raw {
    fn serialize<W: WriteExt>(&self, serializer: &mut Serializer<W>) -> Result<usize> {
        serializer.serialize_raw(&self.0)
    }
}

impl Deserialize for Raw {
    fn deserialize<R: ReadExt>(deserializer: &mut Deserializer<R>) -> Result<Raw> {
        Ok(Raw(deserializer.deserialize_raw()?))
    }
}

impl Begins for Raw {
    fn begins_with(tag: Tag) -> bool {
        tag.number() <= Tag::MAX_NUMBER
    }
}

#[derive(PartialEq)]
pub enum Time {
    Utc(Content<0x17>),
    Generalized(Content<0x18>),
}

impl Serialize for Time {
    fn serialize<W: WriteExt>(&self, serializer: &mut Serializer<W>) -> Result<usize> {
        match self {
            Time::Utc(time) => serializer.serialize_choice(time),
            Time::Generalized(time) => serializer.serialize_choice(time),
        }
    }
}

impl Deserialize for Time {
    fn deserialize<R: ReadExt>(deserializer: &mut Deserializer<R>) -> Result<Time> {
        match deserializer.deserialize_identifier()?.inner() {
            0x17 => Ok(Time::Utc(Content::deserialize(deserializer)?)),
            _ => Ok(Time::Generalized(Content::deserialize(deserializer)?)),
        }
    }
}

pub struct Zero;

impl DefaultOf<u8> for Zero {
    fn is_default(value: &u8) -> bool {
        *value == 0
    }

    fn default() -> u8 {
        0
    }
}

pub struct No;

impl DefaultOf<bool> for No {
    fn is_default(value: &bool) -> bool {
        !*value
    }

    fn default() -> bool {
        false
    }
}

// A struct with these members, which are written as these say.
macro_rules! sequence {
    ($name:ident, $members:ty, $it:ident => $written:expr) => {
        #[derive(PartialEq)]
        pub struct $name($members);

        impl Struct for $name {
            type Members = $members;

            fn from_parts(members: $members) -> $name {
                $name(members)
            }
        }

        impl Serialize for $name {
            fn serialize<W: WriteExt>(&self, serializer: &mut Serializer<W>) -> Result<usize> {
                let $it = &self.0;
                $written.serialize_sequence(serializer)
            }
        }

        impl Deserialize for $name {
            fn deserialize<R: ReadExt>(deserializer: &mut Deserializer<R>) -> Result<$name> {
                deserialize_struct_as(deserializer)
            }
        }
    };
}

type Oid = Content<0x06>;
type Bits = Content<0x03>;
type Name = Vec<Asn1SetOf<Attribute>>;

sequence!(Algorithm, (Oid, Optional<Raw>, ()), it => (&it.0, OptionalRef(&it.1.0), ()));
sequence!(Attribute, (Oid, Raw, ()), it => (&it.0, &it.1, ()));
sequence!(Extension, (Oid, Defaulted<bool, No>, Content<0x04>, ()), it => (&it.0, DefaultedRef::<bool, No>::new(&it.1.value), &it.2, ()));
sequence!(Validity, (Time, Time, ()), it => (&it.0, &it.1, ()));
sequence!(Key, (Algorithm, Bits, ()), it => (&it.0, &it.1, ()));

type Others = (Optional<ImplicitContextTag<Bits, 2>>, Optional<ExplicitContextTag<Vec<Extension>, 3>>, ());
type Signed = (Defaulted<ExplicitContextTag<u8, 0>, Zero>, Content<0x02>, Algorithm, Name, Validity, Name, Key, Optional<ImplicitContextTag<Bits, 1>>, Others);

sequence!(Tbs, Signed, it => (
    DefaultedRef::<ExplicitContextTag<u8, 0>, Zero>::new(&it.0.value),
    &it.1, &it.2, &it.3, &it.4, &it.5, &it.6,
    OptionalRef(&it.7.0), OptionalRef(&it.8.0.0), OptionalRef(&it.8.1.0), ()
));

pub type Certificate = (Tbs, Algorithm, Bits);
