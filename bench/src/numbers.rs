//! Numbers of the wire (RULES 3, 5, 6 and 11), for the inputs and for the floor.

pub const CHANGE_CIPHER_SPEC: u8 = 0x14;
pub const ALERT: u8 = 0x15;
pub const HANDSHAKE: u8 = 0x16;
pub const APPLICATION_DATA: u8 = 0x17;
pub const HEARTBEAT: u8 = 0x18;

pub const HELLO_REQUEST: u8 = 0x00;
pub const CLIENT_HELLO: u8 = 0x01;
pub const SERVER_HELLO: u8 = 0x02;
pub const NEW_SESSION_TICKET: u8 = 0x04;
pub const END_OF_EARLY_DATA: u8 = 0x05;
pub const HELLO_RETRY_REQUEST: u8 = 0x06;
pub const CERTIFICATE: u8 = 0x0b;
pub const SERVER_KEY_EXCHANGE: u8 = 0x0c;
pub const CERTIFICATE_REQUEST: u8 = 0x0d;
pub const SERVER_DONE: u8 = 0x0e;
pub const CERTIFICATE_VERIFY: u8 = 0x0f;
pub const CLIENT_KEY_EXCHANGE: u8 = 0x10;
pub const FINISHED: u8 = 0x14;
pub const CERTIFICATE_STATUS: u8 = 0x16;
pub const KEY_UPDATE: u8 = 0x18;
pub const NEXT_PROTOCOL: u8 = 0x43;

pub const SERVER_NAME: u16 = 0;
pub const MAX_FRAGMENT_LENGTH: u16 = 1;
pub const SUPPORTED_GROUPS: u16 = 10;

pub const SSL30: u16 = 0x0300;
pub const TLS12: u16 = 0x0303;
pub const TLS13_DRAFT18: u16 = 0x7f12;

/// The most that a record may hold.
pub const MAX_RECORD_LEN: usize = 0x4100;
/// The most that the extensions of a hello may hold.
pub const MAX_BLOCK_LEN: usize = 0xffff;
/// The longest session id.
pub const MAX_ID_LEN: usize = 32;
/// The shortest padding of a heartbeat.
pub const MIN_PADDING_LEN: usize = 16;
