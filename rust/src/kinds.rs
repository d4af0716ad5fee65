//! What is made of the table of kinds (`table.rs`).

/// Makes of the table the handshake types, what is told of a message, and how it is opened.
macro_rules! kinds {
    (
        nothing { $($nothing:ident = $nothing_type:literal;)* }
        body { $($body:ident = $body_type:literal;)* }
        fields { $($kind:ident = $kind_type:literal, $read:ident as $told:ident;)* }
        shared { $(
            $one:ident by $one_value:ident, $other:ident by $other_value:ident at $version:ident
                = $shared_type:literal, $shared:ident as $shared_told:ident;
        )* }
        unread { $($unread:ident = $unread_type:literal;)* }
    ) => {
        newtype! {
            /// The type of a handshake message (RULES 5, RFC 5246 7.4).
            TlsHandshakeType(u8) {
                $($nothing = $nothing_type,)*
                $($body = $body_type,)*
                $($kind = $kind_type,)*
                $($one = $shared_type,)*
                $($unread = $unread_type,)*
            }
        }

        impl TlsMessageHandshake<'_> {
            /// The type that a message of this kind has on the wire.
            pub fn handshake_type(&self) -> TlsHandshakeType {
                match self {
                    $(Self::$nothing => TlsHandshakeType::$nothing,)*
                    $(Self::$body(_) => TlsHandshakeType::$body,)*
                    $(Self::$kind(_) => TlsHandshakeType::$kind,)*
                    $(Self::$one(_) | Self::$other(_) => TlsHandshakeType::$one,)*
                }
            }

            /// The number of the kind: its type, or its version where it shares that of another.
            pub(crate) fn kind(&self) -> u16 {
                match self {
                    $(Self::$other(_) => TlsVersion::$version.0,)*
                    _ => self.handshake_type().0.into(),
                }
            }
        }

        /// A message as it was told: its type, and what the reader of its body tells. The value is
        /// made when it is looked at.
        #[derive(Clone, Copy)]
        pub(crate) struct Told(ffi::Kept);

        impl Told {
            /// The type that the message has on the wire.
            #[inline(always)]
            pub fn handshake_type(self) -> TlsHandshakeType {
                TlsHandshakeType(self.0.msg_type)
            }

            /// What is told of a body by its [`met`] type; none where the head or the body is
            /// refused.
            #[inline(always)]
            pub fn of(met: u16, body: &[u8]) -> Option<Told> {
                Some(match met {
                    $($nothing_type => Told(ffi::Kept::nothing($nothing_type)),)*
                    $($body_type => Told(ffi::Kept::nothing($body_type)),)*
                    $($kind_type => {
                        let told = ffi::$read(body);
                        if told.number != 0 {
                            return None;
                        }
                        Told(told.keep($kind_type))
                    })*
                    $($shared_type => {
                        let told = ffi::$shared(body);
                        if told.number != 0 {
                            return None;
                        }
                        Told(told.keep($shared_type))
                    })*
                    // no other type is listed
                    _ => return None,
                })
            }

            /// Hands the message on to `then`; to `outside` where its parts do not lie in the body,
            /// which no export tells.
            ///
            /// Each kind has a call of its own, so that a caller who looks at the kind need not do
            /// so again.
            #[inline(always)]
            pub fn hand_on<'a, B, T: Then<'a, B>>(self, body: &'a [u8], so_far: B, then: T) -> T::Answer {
                match self.0.msg_type {
                    $($nothing_type => then.then(so_far, TlsMessageHandshake::$nothing),)*
                    $($body_type => then.then(so_far, TlsMessageHandshake::$body(Whole::whole(body))),)*
                    $($kind_type => match told::$read(ffi::$told::told(self.0), body) {
                        Some((_, contents)) => then.then(so_far, TlsMessageHandshake::$kind(contents)),
                        None => T::outside(so_far),
                    })*
                    $($shared_type => {
                        let told = ffi::$shared_told::told(self.0);
                        if told.version == TlsVersion::$version.0 {
                            match told::$other_value(told, body) {
                                Some((_, contents)) => then.then(so_far, TlsMessageHandshake::$other(contents)),
                                None => T::outside(so_far),
                            }
                        } else {
                            match told::$one_value(told, body) {
                                Some((_, contents)) => then.then(so_far, TlsMessageHandshake::$one(contents)),
                                None => T::outside(so_far),
                            }
                        }
                    })*
                    // no other type is told
                    _ => T::outside(so_far),
                }
            }

            /// The message; none where its parts do not lie in the body.
            #[inline(always)]
            pub fn message(self, body: &[u8]) -> Option<TlsMessageHandshake<'_>> {
                self.hand_on(body, (), Alone)
            }
        }

        /// A type as it was met: behind the number of a refusal it is that of no message. So one
        /// match looks at both.
        #[inline(always)]
        pub(crate) fn met(msg_type: u8, number: u8) -> u16 {
            u16::from_le_bytes([msg_type, number])
        }
    };
}

pub(crate) use kinds;
