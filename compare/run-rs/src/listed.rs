//! The differences between Norrabist and tls-parser that docs/DIFFERENCES.md lists.

mod broken;

pub use broken::outside;
use judge::account::Class;
use judge::table::refusal;
use Listed::*;

/// Makes of a row for each difference, with its heading in docs/DIFFERENCES.md and the row or item
/// under it, the type of all, first those of the account.
macro_rules! listed {
    (
        account { $($class:ident: $class_heading:ident, $class_item:literal;)* }
        others { $($other:ident: $heading:ident, $item:literal;)* }
    ) => {
        #[derive(Clone, Copy, PartialEq, Eq)]
        pub enum Listed {
            $($class,)*
            $($other,)*
        }

        /// Each stands at its own number.
        pub const ALL: [Listed; [$($class,)* $($other,)*].len()] = [$($class,)* $($other,)*];

        /// How many are of the account.
        const CLASSES: usize = [$($class),*].len();

        impl Listed {
            /// Its heading in docs/DIFFERENCES.md, and the row or item under it.
            pub fn place(self) -> (&'static str, &'static str) {
                match self {
                    $($class => ($class_heading, $class_item),)*
                    $($other => ($heading, $item),)*
                }
            }
        }

        impl From<Class> for Listed {
            fn from(class: Class) -> Listed {
                match class {
                    $(Class::$class => $class,)*
                }
            }
        }
    };
}

const OTHERS: &str = "Records that are no handshake records";
const TICKETS: &str = "NewSessionTickets";
const EXTENSIONS: &str = "Extension lists";
const ADDED: &str = "Norrabist and tls-parser";
const CUT: &str = "Lengths that tls-parser's writers cut";

listed! {
    account {
        ApplicationData: OTHERS, "A record of application data";
        CipherSpecByte: OTHERS, "A ChangeCipherSpec byte other than 1";
        AlertLevel: OTHERS, "An alert level other than 1 and 2";
        HeartbeatType: OTHERS, "A heartbeat type other than 1 and 2";
        HeartbeatPadding: OTHERS, "A heartbeat's padding under 16 bytes";
        HeartbeatPast: OTHERS, "A heartbeat's payload past the end";
        HeartbeatLength: OTHERS, "A heartbeat's given length";
        HeartbeatRest: OTHERS, "What is left behind a heartbeat";
        TicketLength: TICKETS, "A NewSessionTicket's length";
        CipherSpecWritten: OTHERS, "A ChangeCipherSpec is written";
        AlertWritten: OTHERS, "An alert is written";
        ExtensionCut: EXTENSIONS, "An item that does not fit";
        EmptyServerName: EXTENSIONS, "A server_name of no bytes";
        NameList: EXTENSIONS, "The length of a list of names";
        NameLength: EXTENSIONS, "Names that do not fill their list";
        FragmentLength: EXTENSIONS, "A fragment value not of one byte";
        GroupList: EXTENSIONS, "The length of a list of groups";
        OddGroups: EXTENSIONS, "An odd list of groups";
        OpenedThere: EXTENSIONS, "A raw item that tls-parser cannot open";
        NameWritten: EXTENSIONS, "A name over 65,535 bytes";
        ListWritten: EXTENSIONS, "A list over 65,535 bytes";
        ExtensionWritten: EXTENSIONS, "A list of 65,534 or 65,535 bytes";
        RowWritten: EXTENSIONS, "Extensions over 65,535 bytes together";
        NoNamesWritten: EXTENSIONS, "Bytes that names do not fill";
        OddGroupsWritten: EXTENSIONS, "An odd number of bytes for groups";
    }
    others {
        Dropped: ADDED, "how many bytes of a record were dropped";
        NoSuch: ADDED, "NoSuch";
        Random: CUT, "a hello's random";
        Id: CUT, "a hello's id";
        Ciphers: CUT, "ciphers";
        OddCiphers: CUT, "an odd number of cipher bytes";
        Methods: CUT, "methods";
        Extensions: CUT, "a ClientHello's or ServerHello's extensions";
        DraftRandom: CUT, "a draft 18 hello's random";
        DraftExtensions: CUT, "a draft 18 hello's extensions";
        DiffieHellman: CUT, "Diffie-Hellman";
        Curve: CUT, "elliptic curve";
        Raw: CUT, "a raw key exchange, a Finished";
        Content: CUT, "a record's content";
        NoRoom: ADDED, "NoRoom";
    }
}

impl Listed {
    /// The number that Norrabist answers to a value that may not be written, or adds to an answer.
    pub fn number(self) -> u64 {
        match self {
            Dropped => 0,
            Content => refusal::TOO_LARGE,
            NoRoom => refusal::NO_ROOM,
            NoSuch => refusal::NO_SUCH,
            _ => refusal::BAD_LENGTH,
        }
    }

    /// Whether it has answers of more than one number.
    pub fn is_account(self) -> bool {
        (self as usize) < CLASSES
    }
}
