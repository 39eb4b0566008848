//! The cases that tools/bindings writes: inputs, each with what `der read` says of it.
use picky_der::{elements, front, is_der, BerError, Class, Error, JsonError, Message, Reason, Writer};

const CERTIFICATE: u32 = 0;
const READ: u32 = 1;
const REFUSED: u32 = 2;

struct Case {
    verdict: u32,
    offset: usize,
    der: Vec<u8>,
}

fn cases() -> Vec<Case> {
    let bytes = std::fs::read(std::env::var("CASES").expect("CASES names the file")).unwrap();
    let number = |at: usize| u32::from_be_bytes(bytes[at..at + 4].try_into().unwrap());
    let mut at = 4;
    let mut next = || {
        let len = number(at + 8) as usize;
        let case = Case { verdict: number(at), offset: number(at + 4) as usize, der: bytes[at + 12..at + 12 + len].to_vec() };
        at += 12 + len;
        case
    };
    (0..number(0)).map(|_| next()).collect()
}

// Where `der read` says that elements were refused at this position: at bytes after the first, or at the last one before it.
fn offset_of(der: &[u8], position: usize) -> usize {
    let all: Vec<_> = elements(der).map(Result::unwrap).collect();
    if all.first().map_or(false, |first| first.encoding.len() <= position && position < der.len()) {
        return position;
    }
    all.iter().map(|it| it.offset).filter(|offset| *offset < position).last().unwrap_or(0)
}

fn check(case: &Case) {
    let broken = elements(&case.der).find_map(Result::err);
    match Message::Certificate.check(&case.der) {
        Ok(()) => assert!(broken.is_none() && case.verdict != REFUSED),
        Err(error @ Error { reason: Reason::Rule(_), .. }) => {
            assert!(broken == Some(Error { path: String::new(), ..error }) && case.verdict != REFUSED && case.verdict != CERTIFICATE)
        }
        Err(error) => {
            assert!(error.position <= case.der.len() && case.verdict != READ && case.verdict != CERTIFICATE);
            let offset = broken.as_ref().map_or_else(|| offset_of(&case.der, error.position), |rule| rule.position);
            assert!(case.verdict != REFUSED || offset == case.offset);
        }
    }
    assert_eq!(is_der(&case.der), broken.is_none());
}

#[test]
fn four_threads() {
    let threads: Vec<_> = (0..4).map(|_| std::thread::spawn(|| cases().iter().for_each(check))).collect();
    threads.into_iter().for_each(|it| it.join().unwrap());
}

#[test]
fn parts_and_more() {
    let der = cases().remove(0).der;
    for cut in (0..der.len()).step_by(31) {
        let error = Message::Certificate.check(&der[..cut]).unwrap_err();
        assert!(error.reason == Reason::Truncated && error.position <= cut);
    }
    let more = [der.as_slice(), &[0]].concat();
    let error = Message::Certificate.check(&more).unwrap_err();
    assert_eq!((error.reason, error.position), (Reason::Invalid, der.len()));
    assert!(Message::ALL.iter().all(|it| (it.check(&der).is_ok()) == (*it == Message::Certificate)));
}

fn write_again(writer: &mut Writer, bytes: &[u8]) -> Result<(), Error> {
    for element in elements(bytes) {
        let element = element?;
        if element.depth == 0 && element.is_constructed {
            writer.within(element.tag, |inner| write_again(inner, element.content))?;
        } else if element.depth == 0 {
            writer.put(element.tag, element.content)?;
        }
    }
    Ok(())
}

#[test]
fn written_again() {
    for case in cases().iter().filter(|it| it.verdict == CERTIFICATE) {
        let mut writer = Writer::new();
        write_again(&mut writer, &case.der).unwrap();
        assert_eq!(writer.as_bytes(), case.der);
    }
}

#[test]
fn no_bytes() {
    let error = Message::Certificate.check(&[]).unwrap_err();
    assert_eq!(error, Error { reason: Reason::Truncated, position: 0, path: String::new() });
    assert!(is_der(&[]) && elements(&[]).next().is_none() && front(&[]).is_err());
    assert_eq!(Writer::new().put(0x04, &[]).unwrap().as_bytes(), [4, 0]);
}

#[test]
fn paths() {
    let mut der = cases().remove(0).der;
    let algorithm = elements(&der).map(Result::unwrap).find(|it| it.tag == 0x06).unwrap().offset;
    der[algorithm] = 0x04;
    let error = Message::Certificate.check(&der).unwrap_err();
    assert_eq!(error.path, "tbsCertificate.signature.algorithm");
    assert_eq!(error.to_string(), format!("at {}, tbsCertificate.signature.algorithm: not such a message", error.position));
    let padded = [0x6b, 8, 0x30, 6, 0xa0, 4, 2, 2, 0, 5];
    assert_eq!(Message::Krb.check(&padded).unwrap_err().path, "0.0.0.0");
}

#[test]
fn json() {
    let der = cases().remove(0).der;
    let json = Message::Certificate.to_json(&der).unwrap();
    assert!(json.starts_with("{\"signature\":{\"length\":") && json.ends_with('}') && !json.contains('\n'));
    let cut = Message::Certificate.to_json(&der[..9]).unwrap_err();
    assert_eq!(cut, Message::Certificate.check(&der[..9]).unwrap_err());
    let reply = b"\x6f\x1b\x30\x19\xa0\x03\x02\x01\x05\xa1\x03\x02\x01\x0f\xa2\x0d\x30\x0b\xa0\x03\x02\x01\x11\xa2\x04\x04\x02\x01\x02";
    assert_eq!(Message::Krb.to_json(reply).unwrap_err().reason, Reason::NoTable);
    assert_eq!(Message::Krb.from_json("{}").unwrap_err(), JsonError::NoTable);
    assert_eq!(Message::Certificate.from_json(&json).unwrap(), der);
    let refusal = Message::Certificate.from_json(&json.replacen("\"issuer\"", "\"other\"", 1)).unwrap_err();
    assert!(matches!(&refusal, JsonError::Refused(reason) if reason.contains("tbsCertificate")), "{refusal}");
    for wrong in ["", "{", "{}", "[]", "null", "\u{202E}"] {
        assert!(matches!(Message::Certificate.from_json(wrong), Err(JsonError::Refused(_))), "{wrong}");
    }
}

#[test]
fn ber() {
    let der = &cases()[0].der;
    let header = if der[1] < 0x80 { 2 } else { 2 + usize::from(der[1] & 0x7F) };
    let form = [&[0x30, 0x80], &der[header..], &[0, 0]].concat();
    assert!(Message::Certificate.check(&form).is_err());
    assert_eq!(&Message::Certificate.from_ber(&form).unwrap(), der);
    assert_eq!(Message::Krb.from_ber(&form).unwrap_err(), BerError::NoTable);
    let refusal = Message::Certificate.from_ber(&form[..form.len() - 2]).unwrap_err();
    assert!(matches!(&refusal, BerError::Refused(reason) if reason.starts_with("not BER at ")), "{refusal}");
    for wrong in [&[][..], &[0x30, 0x00], &[0x30, 0x80, 0x00]] {
        assert!(matches!(Message::Certificate.from_ber(wrong), Err(BerError::Refused(_))), "{wrong:?}");
    }
}

#[test]
fn small_ones() {
    let first = front(&[0xA1, 0x02, 0x05, 0x00, 0xFF]).unwrap();
    assert_eq!((first.class, first.number, first.content, first.encoding.len()), (Class::ContextSpecific, 1, &[5, 0][..], 4));
    let error = front(&[0x30, 0x81, 0x01, 0x00]).unwrap_err();
    assert_eq!(error.rule().unwrap().1, "10.1");
    assert_eq!(error.to_string(), "at 0: the length isn't in the fewest bytes (X.690, 10.1)");
    let mut writer = Writer::new();
    let unordered = writer.within(0x31, |set| set.put(2, &[2])?.put(2, &[1]).map(|_| ()));
    assert!(unordered.unwrap_err().rule().is_some());
    let mut writer = Writer::new();
    writer.set_of(|set| set.put(2, &[2])?.put(2, &[1, 1])?.put(2, &[1]).map(drop)).unwrap();
    assert_eq!(writer.as_bytes(), [0x31, 10, 2, 1, 1, 2, 1, 2, 2, 2, 1, 1]);
    let mut deep = Vec::new();
    for _ in 0..200 {
        let mut writer = Writer::new();
        writer.put(0x30, &deep).unwrap();
        deep = writer.into_bytes();
    }
    assert_eq!(elements(&deep).map(|it| it.unwrap().depth).max(), Some(199));
}
