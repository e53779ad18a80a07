//! The numbers of the protocol, by name.

/// The most that a frame may have without its four length bytes, whatever was agreed.
pub const MAX_FRAME: u32 = 1_048_576;

/// The size of a frame that is usually agreed.
pub const AGREED_FRAME: u32 = 16_384;

/// The flags of a frame.
pub const FIN: u64 = 1;
pub const ABORT: u64 = 2;

/// An enum whose variants stand for numbers, and the way back from a number.
macro_rules! numbered {
    ($(#[$note:meta])* $name:ident { $($variant:ident = $number:literal,)* }) => {
        $(#[$note])*
        #[derive(Clone, Copy, Debug, PartialEq, Eq, Hash)]
        #[repr(u64)]
        pub enum $name {
            $($variant = $number,)*
        }

        impl $name {
            /// What the number stands for, if anything.
            pub const fn from_number(number: u64) -> Option<Self> {
                match number {
                    $($number => Some(Self::$variant),)*
                    _ => None,
                }
            }

            pub const fn number(self) -> u64 {
                self as u64
            }
        }
    };
}

numbered! {
    /// The kind of a value: the lower four bits of its type byte.
    Kind {
        Null = 0,
        Bool = 1,
        I32 = 2,
        U32 = 3,
        I64 = 4,
        U64 = 5,
        Ipv4 = 6,
        Ipv6 = 7,
        String = 8,
        Binary = 9,
    }
}

numbered! {
    /// The type of a frame. A reader gives the first three, which HAProxy sends.
    FrameType {
        HaproxyHello = 1,
        HaproxyDisconnect = 2,
        Notify = 3,
        AgentHello = 101,
        AgentDisconnect = 102,
        Ack = 103,
    }
}

numbered! {
    /// What an action does.
    ActionType {
        SetVar = 1,
        UnsetVar = 2,
    }
}

numbered! {
    /// How far a variable reaches.
    Scope {
        Process = 0,
        Session = 1,
        Transaction = 2,
        Request = 3,
        Response = 4,
    }
}

/// What the head of a frame has beside its type. Without more said, FIN alone and both ids 0:
///
/// ```
/// use muleflurry::Metadata;
///
/// let metadata = Metadata { stream_id: 7, frame_id: 1, ..Metadata::default() };
/// assert!(metadata.fin && !metadata.abort);
/// ```
#[derive(Clone, Copy, Debug, PartialEq, Eq, Hash)]
pub struct Metadata {
    pub fin: bool,
    pub abort: bool,
    pub stream_id: u64,
    pub frame_id: u64,
}

impl Default for Metadata {
    fn default() -> Self {
        Self { fin: true, abort: false, stream_id: 0, frame_id: 0 }
    }
}
