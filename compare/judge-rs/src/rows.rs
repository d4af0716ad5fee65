//! What is made of the rows of the table (`table.rs`).

/// Makes the names of the functions, the types of the kinds, the calls of the functions, and what
/// tells a message.
macro_rules! table {
    (
        whole { $($whole:ident = $whole_fn:ident;)* }
        headed { $($headed:ident = $headed_fn:ident;)* }
        short { $($short:ident = $short_fn:ident;)* }
        blocks { $($block:ident = $block_fn:ident;)* }
        kinds { $(
            $kind:ident $(($value:ident))? = $type:literal
            $(, contents $contents:ident = $contents_fn:ident)*
            $(, message $message:ident = $message_fn:ident)*
            $(, sized $sized:ident = $sized_fn:ident)?;
        )* }
        shared { $($twin:ident($twin_value:ident) = $version:ident;)* }
        writers { $($writer:ident = $writer_fn:ident, $write:ident($made:ident);)* }
    ) => {
        $(pub const $whole: &str = stringify!($whole_fn);)*
        $(pub const $headed: &str = stringify!($headed_fn);)*
        $(pub const $short: &str = stringify!($short_fn);)*
        $(pub const $block: &str = stringify!($block_fn);)*
        $(
            $(pub const $contents: &str = stringify!($contents_fn);)*
            $(pub const $message: &str = stringify!($message_fn);)*
            $(pub const $sized: &str = stringify!($sized_fn);)?
        )*
        $(pub const $writer: &str = stringify!($writer_fn);)*

        /// The readers of records, messages and bodies, in the order of the table.
        pub const OF_MESSAGES: [&str; [
            $($whole,)* $($headed,)* $($short,)* $($($contents,)* $($message,)* $($sized,)?)*
        ].len()] = [$($whole,)* $($headed,)* $($short,)* $($($contents,)* $($message,)* $($sized,)?)*];

        /// The readers: those, and then that of extension blocks.
        pub const READING: [&str; OF_MESSAGES.len() + [$($block),*].len()] =
            $crate::rows::joined(OF_MESSAGES, [$($block),*]);

        /// The writers, in the order of the table.
        pub const WRITING: [&str; [$($writer),*].len()] = [$($writer),*];

        /// The readers that take a length besides the bytes.
        pub const SIZED: [&str; [$($($sized,)?)*].len()] = [$($($sized,)?)*];

        /// Those that take one of 16 bits.
        pub const SHORT: [&str; [$($short),*].len()] = [$($short),*];

        /// The handshake types of the kinds (RULES 5).
        #[allow(non_upper_case_globals)]
        pub mod kind {
            $(pub const $kind: u8 = $type;)*
        }

        /// The handshake types that are opened, the least first.
        pub const TYPES: [u8; [$($type),*].len()] = $crate::rows::sorted([$($type),*]);

        /// The functions that read the body of a handshake type.
        pub fn of_type(handshake_type: u8) -> &'static [&'static str] {
            match handshake_type {
                $($type => &[$($contents,)* $($message,)* $($sized,)?],)*
                _ => &[],
            }
        }

        /// The numbers of a reader's answer, put behind those that are there. A reader that takes
        /// no length does not look at it.
        pub fn read(name: &str, i: &[u8], length: usize, to: &mut Vec<u64>) {
            match name {
                $($whole => told(to, i, $whole_fn(i)),)*
                $($headed => {
                    let Headed { hdr, content } = Headed::read(i);
                    told(to, content, $headed_fn(content, &hdr))
                })*
                $($short => told(to, i, $short_fn(i, length)),)*
                $($block => told(to, i, $block_fn(i)),)*
                $(
                    $($contents => told(to, i, $contents_fn(i)),)*
                    $($message => told(to, i, $message_fn(i)),)*
                    $($sized => told(to, i, $sized_fn(i, length)),)?
                )*
                _ => panic!("no function {name}"),
            }
        }

        /// The number of the kind, which is its type or its version, and what it holds.
        impl Told for TlsMessageHandshake<'_> {
            fn told(&self, s: &mut Sheet) {
                match self {
                    $(TlsMessageHandshake::$kind $(($value))? => {
                        s.number(kind::$kind);
                        $($value.told(s);)?
                    })*
                    $(TlsMessageHandshake::$twin($twin_value) => {
                        s.number(version::$version);
                        $twin_value.told(s);
                    })*
                }
            }
        }

        /// Whether the value that a case of a writer says may be written.
        pub fn is_inside(name: &str, i: &[u8]) -> bool {
            match name {
                $($writer => domain::$write(&$made::read(i)),)*
                _ => false,
            }
        }

        /// What a writer writes for the value that a case says.
        pub fn written(name: &str, i: &[u8]) -> write::Written {
            match name {
                $($writer => write::$write(&$made::read(i)),)*
                _ => panic!("no function {name}"),
            }
        }
    };
}

pub(crate) use table;

/// The bytes, the least first.
pub const fn sorted<const N: usize>(mut bytes: [u8; N]) -> [u8; N] {
    let mut k = 1;
    while k < N {
        let mut at = k;
        while at > 0 && bytes[at - 1] > bytes[at] {
            (bytes[at - 1], bytes[at]) = (bytes[at], bytes[at - 1]);
            at -= 1;
        }
        k += 1;
    }
    bytes
}

/// The names of both, one behind the other.
pub const fn joined<const N: usize, const M: usize, const K: usize>(
    first: [&'static str; N],
    second: [&'static str; M],
) -> [&'static str; K] {
    let mut all = [""; K];
    let mut k = 0;
    while k < K {
        all[k] = if k < N { first[k] } else { second[k - N] };
        k += 1;
    }
    all
}
