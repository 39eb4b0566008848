//! With NO_MEMORY each allocation of the library fails.
use picky_der::{front, is_der, Message, Reason, Writer};

// The certificate that CASES begins with, after four numbers of which the last is its length.
fn certificate() -> Vec<u8> {
    let bytes = std::fs::read(std::env::var("CASES").expect("CASES names the file")).unwrap();
    let len = u32::from_be_bytes(bytes[12..16].try_into().unwrap()) as usize;
    bytes[16..16 + len].to_vec()
}

#[test]
fn no_memory() {
    if std::env::var_os("NO_MEMORY").is_none() {
        return;
    }
    let der = certificate();
    let error = Message::Certificate.check(&der).unwrap_err();
    assert_eq!((error.reason, error.position), (Reason::NoMemory, 0));
    assert!(is_der(&der));
    assert_eq!(front(&der).unwrap().encoding, der);
    assert_eq!(Writer::new().put(0x02, &[5]).unwrap().as_bytes(), [2, 1, 5]);
}
