//! Whether code for tls-parser compiles with Norrabist, which it does if this program is built; and
//! whether values are printed as tls-parser prints them.

mod text;

use std::process::ExitCode;

/// The snippets, with both crates, and with Norrabist's readers for nom.
#[allow(dead_code, clippy::all)]
mod snippets {
    pub mod tls_parser_plain {
        use tls_parser as tls;
        include!("../../../rust/tests/snippets/plain.rs");
    }
    pub mod norrabist_plain {
        use norrabist as tls;
        include!("../../../rust/tests/snippets/plain.rs");
    }
    pub mod norrabist_nom_plain {
        use norrabist_nom as tls;
        include!("../../../rust/tests/snippets/plain.rs");
    }
    pub mod tls_parser_messages {
        use tls_parser as tls;
        include!("../../../rust/tests/snippets/messages.rs");
    }
    pub mod norrabist_messages {
        use norrabist as tls;
        include!("../../../rust/tests/snippets/messages.rs");
    }
    pub mod norrabist_nom_messages {
        use norrabist_nom as tls;
        include!("../../../rust/tests/snippets/messages.rs");
    }
    pub mod tls_parser_extensions {
        use tls_parser as tls;
        include!("../../../rust/tests/snippets/extensions.rs");
    }
    pub mod norrabist_extensions {
        use norrabist as tls;
        include!("../../../rust/tests/snippets/extensions.rs");
    }
    pub mod norrabist_nom_extensions {
        use norrabist_nom as tls;
        include!("../../../rust/tests/snippets/extensions.rs");
    }
    pub mod tls_parser_nom {
        use tls_parser as tls;
        include!("../../../rust/tests/snippets/nom.rs");
    }
    pub mod norrabist_nom_nom {
        use norrabist_nom as tls;
        include!("../../../rust/tests/snippets/nom.rs");
    }
}

fn main() -> ExitCode {
    match text::compare() {
        Ok(text::Compared { numbers, suites, values, errors }) => {
            println!(
                "{numbers} numbers, {suites} cipher suites, {values} values and {errors} errors \
                 are printed alike"
            );
            ExitCode::SUCCESS
        }
        Err(differs) => {
            println!("{differs}");
            ExitCode::FAILURE
        }
    }
}
