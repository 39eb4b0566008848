//! Checks a certificate on standard input, and lists its elements.
use picky_der::{elements, Message};
use std::io::Read;

fn main() -> Result<(), Box<dyn std::error::Error>> {
    let mut der = Vec::new();
    std::io::stdin().read_to_end(&mut der)?;
    Message::Certificate.check(&der)?;
    for element in elements(&der) {
        let element = element?;
        println!("{:6} {:02X} {} bytes", element.offset, element.tag, element.content.len());
    }
    Ok(())
}
