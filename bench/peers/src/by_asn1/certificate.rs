//! Certificates by pyca's `asn1`: each list is read once, into a vector, and contents are borrowed until they are copied.
use asn1::{Asn1Read, Asn1Readable, Asn1Writable, Asn1Write, BigInt, BitString, ObjectIdentifier, Tag, Tlv};
use asn1::{ParseError, ParseErrorKind, ParseResult, SetOfWriter, SimpleAsn1Readable, SimpleAsn1Writable, WriteBuf, WriteResult, Writer};

/// The text of a time: 23 is the tag of UTCTime, and 24 that of GeneralizedTime.
pub struct Text<'a, const NUMBER: u32>(&'a [u8]);

impl<'a, const NUMBER: u32> SimpleAsn1Readable<'a> for Text<'a, NUMBER> {
    const TAG: Tag = Tag::primitive(NUMBER);
    fn parse_data(content: &'a [u8]) -> ParseResult<Self> {
        Ok(Text(content))
    }
}

impl<const NUMBER: u32> SimpleAsn1Writable for Text<'_, NUMBER> {
    const TAG: Tag = Tag::primitive(NUMBER);
    fn write_data(&self, to: &mut WriteBuf) -> WriteResult {
        to.push_slice(self.0)
    }
}

pub struct List<T>(pub Vec<T>);

impl<'a, T: Asn1Readable<'a>> SimpleAsn1Readable<'a> for List<T> {
    const TAG: Tag = <asn1::Sequence as SimpleAsn1Readable>::TAG;
    fn parse_data(content: &'a [u8]) -> ParseResult<Self> {
        asn1::parse(content, |parser| {
            let mut members = Vec::new();
            while !parser.is_empty() {
                members.push(parser.read_element()?);
            }
            Ok(List(members))
        })
    }
}

impl<T: Asn1Writable> SimpleAsn1Writable for List<T> {
    const TAG: Tag = <asn1::Sequence as SimpleAsn1Readable>::TAG;
    fn write_data(&self, to: &mut WriteBuf) -> WriteResult {
        let mut to = Writer::new(to);
        self.0.iter().try_for_each(|it| to.write_element(it))
    }
}

pub struct Set<T>(Vec<T>);

impl<'a, T: Asn1Readable<'a>> SimpleAsn1Readable<'a> for Set<T> {
    const TAG: Tag = <asn1::SetOf<Tlv> as SimpleAsn1Readable>::TAG;
    fn parse_data(content: &'a [u8]) -> ParseResult<Self> {
        asn1::parse(content, |parser| {
            let mut members = Vec::new();
            let mut last: &[u8] = &[];
            while !parser.is_empty() {
                let member: Tlv = parser.read_element()?;
                if last > member.full_data() {
                    return Err(ParseError::new(ParseErrorKind::InvalidSetOrdering));
                }
                last = member.full_data();
                members.push(member.parse()?);
            }
            Ok(Set(members))
        })
    }
}

struct Borrowed<'b, T>(&'b T);

impl<T: Asn1Writable> Asn1Writable for Borrowed<'_, T> {
    fn write(&self, to: &mut Writer) -> WriteResult {
        self.0.write(to)
    }
}

impl<T: Asn1Writable> SimpleAsn1Writable for Set<T> {
    const TAG: Tag = <asn1::SetOf<Tlv> as SimpleAsn1Readable>::TAG;
    fn write_data(&self, to: &mut WriteBuf) -> WriteResult {
        match &self.0[..] {
            [only] => Writer::new(to).write_element(only),
            all => SetOfWriter::new(all.iter().map(Borrowed).collect::<Vec<_>>()).write_data(to),
        }
    }
}

#[derive(Asn1Read, Asn1Write)]
struct Algorithm<'a> {
    algorithm: ObjectIdentifier,
    parameters: Option<Tlv<'a>>,
}

#[derive(Asn1Read, Asn1Write)]
pub struct Key<'a> {
    algorithm: Algorithm<'a>,
    key: BitString<'a>,
}

#[derive(Asn1Read, Asn1Write)]
struct Attribute<'a> {
    kind: ObjectIdentifier,
    value: Tlv<'a>,
}

#[derive(Asn1Read, Asn1Write)]
struct Extension<'a> {
    id: ObjectIdentifier,
    #[default(false)]
    critical: bool,
    value: &'a [u8],
}

#[derive(Asn1Read, Asn1Write)]
enum Time<'a> {
    Utc(Text<'a, 23>),
    Generalized(Text<'a, 24>),
}

#[derive(Asn1Read, Asn1Write)]
struct Validity<'a> {
    not_before: Time<'a>,
    not_after: Time<'a>,
}

#[derive(Asn1Read, Asn1Write)]
struct Signed<'a> {
    #[explicit(0)]
    #[default(0)]
    version: u8,
    serial_number: BigInt<'a>,
    signature: Algorithm<'a>,
    issuer: List<Set<Attribute<'a>>>,
    validity: Validity<'a>,
    subject: List<Set<Attribute<'a>>>,
    key: Key<'a>,
    #[implicit(1)]
    issuer_id: Option<BitString<'a>>,
    #[implicit(2)]
    subject_id: Option<BitString<'a>>,
    #[explicit(3)]
    extensions: Option<List<Extension<'a>>>,
}

#[derive(Asn1Read, Asn1Write)]
pub struct Certificate<'a> {
    signed: Signed<'a>,
    algorithm: Algorithm<'a>,
    signature: BitString<'a>,
}

type Bytes = Vec<u8>;
type OwnedAlgorithm = (ObjectIdentifier, Option<Bytes>);
type OwnedBits = (u8, Bytes);
pub type OwnedKey = (OwnedAlgorithm, OwnedBits);
type OwnedName = Vec<Vec<(ObjectIdentifier, Bytes)>>;

/// A certificate with its contents copied, each to a vector of its own.
#[allow(dead_code)]
pub struct OwnedCertificate {
    version: u8,
    serial_number: Bytes,
    signature: OwnedAlgorithm,
    issuer: OwnedName,
    validity: (Bytes, Bytes),
    subject: OwnedName,
    key: OwnedKey,
    ids: (Option<OwnedBits>, Option<OwnedBits>),
    extensions: Option<Vec<(ObjectIdentifier, bool, Bytes)>>,
    algorithm: OwnedAlgorithm,
    signature_bits: OwnedBits,
}

impl Algorithm<'_> {
    fn owned(self) -> OwnedAlgorithm {
        (self.algorithm, self.parameters.map(|it| it.full_data().to_vec()))
    }
}

impl Key<'_> {
    pub fn owned(self) -> OwnedKey {
        (self.algorithm.owned(), bits(self.key))
    }
}

impl Time<'_> {
    fn owned(self) -> Bytes {
        match self {
            Time::Utc(text) => text.0.to_vec(),
            Time::Generalized(text) => text.0.to_vec(),
        }
    }
}

fn bits(it: BitString) -> OwnedBits {
    (it.padding_bits(), it.as_bytes().to_vec())
}

fn name(it: List<Set<Attribute>>) -> OwnedName {
    let step = |set: Set<Attribute>| set.0.into_iter().map(|it| (it.kind, it.value.full_data().to_vec())).collect();
    it.0.into_iter().map(step).collect()
}

impl Certificate<'_> {
    pub fn owned(self) -> OwnedCertificate {
        let signed = self.signed;
        let extension = |it: Extension| (it.id, it.critical, it.value.to_vec());
        OwnedCertificate {
            version: signed.version,
            serial_number: signed.serial_number.as_bytes().to_vec(),
            signature: signed.signature.owned(),
            issuer: name(signed.issuer),
            validity: (signed.validity.not_before.owned(), signed.validity.not_after.owned()),
            subject: name(signed.subject),
            key: signed.key.owned(),
            ids: (signed.issuer_id.map(bits), signed.subject_id.map(bits)),
            extensions: signed.extensions.map(|it| it.0.into_iter().map(extension).collect()),
            algorithm: self.algorithm.owned(),
            signature_bits: bits(self.signature),
        }
    }
}
