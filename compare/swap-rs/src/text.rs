//! What both crates print: numbers with names, cipher suites, and every value and error of the
//! recorded readings.

use judge::account;
use judge::case::Case;
use judge::made::Headed;
use judge::table::{MSG_TICKET, WITH_HEADER};
use judge::text::PARTED;
use std::fmt::Debug;

/// The recorded list: `compare/README.md` says how it is written.
const RECORDED: &str = include_str!("../../recorded.txt");

/// How much was compared.
#[derive(Default)]
pub struct Compared {
    pub numbers: usize,
    pub suites: usize,
    pub values: usize,
    pub errors: usize,
}

/// The first text that differs, with what it is of.
pub type Differs = String;

fn same(of: &dyn Fn() -> String, ours: &str, theirs: &str) -> Result<(), Differs> {
    if ours == theirs {
        return Ok(());
    }
    Err(format!("{}\nNorrabist:  {ours}\ntls-parser: {theirs}", of()))
}

fn printed(of: &dyn Fn() -> String, ours: &impl Debug, theirs: &impl Debug) -> Result<(), Differs> {
    same(of, &format!("{ours:?}"), &format!("{theirs:?}"))?;
    same(of, &format!("{ours:#?}"), &format!("{theirs:#?}"))
}

/// Every number of a type, as `Display` and `Debug` print it, and in hex where `hex` is said.
macro_rules! numbers {
    ($compared:ident: $($name:ident($number:ty $(, $hex:ident)?);)*) => {$(
        for n in 0..=<$number>::MAX {
            let (ours, theirs) = (norrabist::$name(n), tls_parser::$name(n));
            let of = || format!(concat!(stringify!($name), "({})"), n);
            same(&of, &format!("{ours} {ours:9}"), &format!("{theirs} {theirs:9}"))?;
            printed(&of, &ours, &theirs)?;
            $(
                let _ = stringify!($hex);
                same(&of, &format!("{ours:x} {ours:#06x}"), &format!("{theirs:x} {theirs:#06x}"))?;
            )?
            $compared.numbers += 1;
        }
    )*};
}

/// What both crates have on the suite of a number: every field, and what is counted of them.
macro_rules! suite {
    ($tls:ident, $id:expr) => {
        $tls::TlsCipherSuite::from_id($id).map(|suite| {
            let again = $tls::TlsCipherSuite::from_name(suite.name).map(|named| named.id);
            let numbers = [suite.kx as u8, suite.au as u8, suite.enc as u8, suite.enc_mode as u8];
            let sizes = (suite.enc_key_size(), suite.enc_block_size(), suite.mac_length());
            (suite, again, numbers, suite.mac as u8, suite.prf as u8, sizes)
        })
    };
}

/// The cipher suite of every number, if it has one.
fn suites(compared: &mut Compared) -> Result<(), Differs> {
    for id in 0..=u16::MAX {
        let ours = suite!(norrabist, id);
        printed(&|| format!("the suite of 0x{id:04x}"), &ours, &suite!(tls_parser, id))?;
        compared.suites += usize::from(ours.is_some());
    }
    Ok(())
}

/// Blocks of the kinds that both crates open, and of a type that neither does: names of every
/// character, and of every byte alone; every fragment length and every group; and the bits of the
/// group's key.
fn extensions(compared: &mut Compared) -> Result<(), Differs> {
    let sized = |bytes: &[u8]| {
        let len = u16::try_from(bytes.len()).expect("a length of two bytes").to_be_bytes();
        [&len, bytes].concat()
    };
    let named = |kind: u8, name: &[u8]| {
        let entry = [&[kind][..], &sized(name)].concat();
        [&[0, 0][..], &sized(&sized(&entry))].concat()
    };
    let characters: Vec<char> = ('\0'..=char::MAX).collect();
    let names = characters.chunks(8192).map(|some| named(0, some.iter().collect::<String>().as_bytes()));
    let bytes = (0..=u8::MAX).flat_map(|n| [named(n, &[n]), vec![0, 1, 0, 1, n], vec![0x12, 0x34, 0, 1, n]]);
    let groups = (0..=u16::MAX).map(|n| [&[0, 10, 0, 4, 0, 2], &n.to_be_bytes()[..]].concat());
    for block in names.chain(bytes).chain(groups) {
        let of = || format!("the block {block:02x?}");
        let ours = norrabist_nom::parse_tls_extensions(&block).map_err(|e| e.to_string())?;
        let theirs = tls_parser::parse_tls_extensions(&block).map_err(|e| e.to_string())?;
        printed(&of, &ours, &theirs)?;
        compared.values += 1;
    }
    for n in 0..=u16::MAX {
        let (ours, theirs) = (norrabist::NamedGroup(n).key_bits(), tls_parser::NamedGroup(n).key_bits());
        printed(&|| format!("the bits of group {n}"), &ours, &theirs)?;
    }
    Ok(())
}

/// The reading of a case by both crates.
macro_rules! readings {
    ($case:ident, $compared:ident: $($name:ident($($len:ident)?);)*) => {
        match $case.function {
            $(stringify!($name) => {
                $(let $len = $case.length.unwrap_or(0).try_into().expect("a length of its width");)?
                let ours = norrabist_nom::$name(&$case.input $(, $len)?);
                let theirs = tls_parser::$name(&$case.input $(, $len)?);
                read(&$case, ours, theirs, $compared)
            })*
            _ => Ok(()),
        }
    };
}

fn read<'a, T: Debug, U: Debug>(
    case: &Case,
    ours: nom::IResult<&'a [u8], T>,
    theirs: nom::IResult<&'a [u8], U>,
    compared: &mut Compared,
) -> Result<(), Differs> {
    let of = || case.to_string();
    let code = |e: nom::Err<nom::error::Error<&[u8]>>| match e {
        nom::Err::Incomplete(_) => "Incomplete".to_string(),
        nom::Err::Error(e) => format!("Error {:?}", e.code),
        nom::Err::Failure(e) => format!("Failure {:?}", e.code),
    };
    match (ours, theirs) {
        (Ok((_, ours)), Ok((_, theirs))) => {
            compared.values += 1;
            printed(&of, &ours, &theirs)
        }
        (Err(ours), Err(theirs)) => {
            compared.errors += 1;
            same(&of, &code(ours), &code(theirs))
        }
        (ours, theirs) => same(&of, &format!("{ours:?}"), &format!("{theirs:?}")),
    }
}

/// A handshake record's content, opened behind its header, and what is left over of it; but where
/// the two part as listed.
fn content(case: &Case, compared: &mut Compared) -> Result<(), Differs> {
    let (ours, theirs) = match (
        norrabist_nom::parse_tls_raw_record(&case.input),
        tls_parser::parse_tls_raw_record(&case.input),
    ) {
        (Ok((_, ours)), Ok((_, theirs))) => (ours, theirs),
        _ => return Ok(()),
    };
    let input = case.input[..5 + theirs.data.len()].to_vec();
    let is_parted = account::is_parted(&Case { function: WITH_HEADER, length: None, input });
    if theirs.hdr.record_type != tls_parser::TlsRecordType::Handshake || is_parted {
        return Ok(());
    }
    headed(case, (ours.data, &ours.hdr), (theirs.data, &theirs.hdr), compared)
}

/// A content and its header, in the types of each crate.
fn headed<'a>(
    case: &Case,
    ours: (&'a [u8], &norrabist_nom::TlsRecordHeader),
    theirs: (&'a [u8], &tls_parser::TlsRecordHeader),
    compared: &mut Compared,
) -> Result<(), Differs> {
    let ours = norrabist_nom::parse_tls_record_with_header(ours.0, ours.1);
    let theirs = tls_parser::parse_tls_record_with_header(theirs.0, theirs.1);
    if let (Ok((ours, _)), Ok((theirs, _))) = (&ours, &theirs) {
        same(&|| case.to_string(), &format!("{ours:?}"), &format!("{theirs:?}"))?;
    }
    read(case, ours, theirs, compared)
}

/// A NewSessionTicket that is taken: tls-parser's type, with the ticket by the account.
fn ticket(case: &Case, compared: &mut Compared) -> Result<(), Differs> {
    let length = case.length.unwrap_or(0).try_into().expect("a length of its width");
    let ours = norrabist_nom::parse_tls_handshake_msg_newsessionticket(&case.input, length);
    match (ours, account::ticket(&case.input, length)) {
        (Ok((_, ours)), Ok((_, by_account))) => {
            compared.values += 1;
            printed(&|| case.to_string(), &ours, &by_account)
        }
        _ => Ok(()),
    }
}

fn case(line: &str, compared: &mut Compared) -> Result<(), Differs> {
    let case: Case = line.parse()?;
    if case.function == MSG_TICKET {
        ticket(&case, compared)?;
    }
    if case.function == "parse_tls_raw_record" || case.function == "parse_tls_plaintext" {
        content(&case, compared)?;
    }
    // where the two part as listed
    if line.contains(PARTED) {
        return Ok(());
    }
    if case.function == "parse_tls_record_with_header" {
        let theirs = Headed::read(&case.input);
        let tls_parser::TlsRecordHeader { record_type, version, len } = theirs.hdr;
        let record_type = norrabist::TlsRecordType(record_type.0);
        let ours = norrabist::TlsRecordHeader { record_type, version: norrabist::TlsVersion(version.0), len };
        return headed(&case, (theirs.content, &ours), (theirs.content, &theirs.hdr), compared);
    }
    readings! { case, compared:
        parse_tls_record_header();
        parse_tls_raw_record();
        parse_tls_encrypted();
        parse_tls_plaintext();
        tls_parser_many();
        parse_tls_message_handshake();
        parse_tls_message_changecipherspec();
        parse_tls_message_alert();
        parse_tls_message_applicationdata();
        parse_tls_message_heartbeat(len);
        parse_tls_handshake_client_hello();
        parse_tls_handshake_server_hello();
        parse_tls_handshake_certificaterequest();
        parse_tls_handshake_certificatestatus();
        parse_tls_handshake_next_protocol();
        parse_tls_handshake_msg_hello_request();
        parse_tls_handshake_msg_client_hello();
        parse_tls_handshake_msg_server_hello();
        parse_tls_handshake_msg_hello_retry_request();
        parse_tls_handshake_msg_certificate();
        parse_tls_handshake_msg_certificaterequest();
        parse_tls_handshake_msg_certificatestatus();
        parse_tls_handshake_msg_next_protocol();
        parse_tls_handshake_msg_key_update();
        parse_tls_handshake_msg_newsessionticket(len);
        parse_tls_handshake_msg_serverkeyexchange(len);
        parse_tls_handshake_msg_serverdone(len);
        parse_tls_handshake_msg_certificateverify(len);
        parse_tls_handshake_msg_clientkeyexchange(len);
        parse_tls_handshake_msg_finished(len);
    }
}

/// Compares all, up to the first text that differs.
pub fn compare() -> Result<Compared, Differs> {
    let mut compared = Compared::default();
    numbers! { compared:
        TlsVersion(u16, hex);
        TlsCipherSuiteID(u16, hex);
        TlsCompressionID(u8);
        TlsHandshakeType(u8);
        TlsRecordType(u8);
        TlsAlertSeverity(u8);
        TlsAlertDescription(u8);
        TlsHeartbeatMessageType(u8);
        TlsExtensionType(u16);
        NamedGroup(u16);
        SNIType(u8);
    }
    suites(&mut compared)?;
    extensions(&mut compared)?;
    for line in RECORDED.lines().filter(|line| !line.starts_with('#')) {
        case(line, &mut compared)?;
    }
    Ok(compared)
}
