//! Prints what each ClientHello in a file of joined records offers, and each refusal.
use norrabist::{parse_tls_plaintext, parse_tls_raw_record, TlsMessage, TlsMessageHandshake};

fn main() -> Result<(), Box<dyn std::error::Error>> {
    let bytes = std::fs::read(std::env::args().nth(1).ok_or("usage: readme FILE")?)?;
    let mut left = &bytes[..];
    while !left.is_empty() {
        match parse_tls_plaintext(left) {
            Ok((_, record)) => record.msg.iter().for_each(|message| show(&message)),
            Err(refusal) => println!("refused: {:?}", refusal.reason), // Reason::Complete, ..
        }
        left = parse_tls_raw_record(left)?.0; // a record that is refused may still be whole
    }
    Ok(())
}

fn show(message: &TlsMessage) {
    let TlsMessage::Handshake(TlsMessageHandshake::ClientHello(hello)) = message else { return };
    let extensions = match (hello.ext, hello.tail) {
        (Some(_), _) => "present",
        (None, []) => "absent",
        (None, _) => "absent with a tail", // a block that may have been cut off
    };
    println!("{:04x}, {} ciphers, extensions {extensions}", hello.version.0, hello.ciphers.len());
}
