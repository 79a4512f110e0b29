//! Messages in the layouts of systems of today.
use crate::{sys, Errno};
use std::error::Error;
use std::fmt;

/// A system, by the layout of its messages: 4.4BSD as it is here, the others on 64-bit machines that keep the lowest byte
/// first.
#[derive(Clone, Copy, Debug, PartialEq, Eq, Hash)]
pub enum System {
    /// 4.4BSD on a 32-bit machine that keeps the highest byte first.
    Bsd44 = 0,
    /// FreeBSD.
    FreeBsd = 1,
    /// OpenBSD.
    OpenBsd = 2,
    /// NetBSD up to 7.
    NetBsd = 3,
    /// macOS.
    MacOs = 4,
}

/// Why a message has no counterpart in the layout of another system, the first of these that holds.
#[derive(Clone, Copy, Debug, PartialEq, Eq, Hash)]
pub enum Fault {
    /// Its type has none: it is none of 1 to 13, or there are fewer than four bytes.
    Kind = 257,
    /// There are fewer bytes than its header has, or it says another length than it has.
    Length = 258,
    /// It is of another version than the system's.
    Version = 259,
    /// An address's length byte counts bytes past the end.
    Overrun = 260,
    /// A number has more bytes than its place in the other layout, or a link-layer address is too long there.
    Wide = 261,
}

const FAULTS: [(Fault, &str); 5] = [
    (Fault::Kind, "The type has no counterpart"),
    (Fault::Length, "The length is wrong"),
    (Fault::Version, "The version is another"),
    (Fault::Overrun, "An address passes the end"),
    (Fault::Wide, "A number or an address is too wide"),
];

impl Fault {
    /// The fault of this code, where it is one's.
    pub(crate) fn of(code: u32) -> Option<Fault> {
        let found = FAULTS.iter().find(|(fault, _)| *fault as u32 == code);
        found.map(|(fault, _)| *fault)
    }

    /// The errno by which a write of such a message is refused.
    pub fn errno(self) -> Errno {
        match self {
            Fault::Version => Errno::EPROTONOSUPPORT,
            _ => Errno::EINVAL,
        }
    }
}

impl fmt::Display for Fault {
    fn fmt(&self, f: &mut fmt::Formatter<'_>) -> fmt::Result {
        let text = FAULTS.iter().find(|(fault, _)| fault == self);
        f.write_str(text.map_or("", |(_, text)| text))
    }
}

impl Error for Fault {}

/// A message of one system in the layout of another. What has no place there is left out.
///
/// ```
/// use hoiskend::{convert, Fault, System};
/// let get = [0, 76, 3, 4, 0, 0, 0, 0, 0, 0, 0, 0, 0, 0, 0, 0, 0, 0, 0, 0, 0, 0, 0, 1];
/// let get: Vec<u8> = get.into_iter().chain([0; 52]).collect();
/// let there = convert(System::Bsd44, System::OpenBsd, &get).unwrap();
/// assert_eq!((there.len(), &there[..6]), (96, &[96, 0, 5, 4, 96, 0][..]));
/// assert_eq!(convert(System::OpenBsd, System::Bsd44, &there).as_deref(), Ok(&get[..]));
/// assert_eq!(convert(System::FreeBsd, System::Bsd44, &there), Err(Fault::Length));
/// ```
pub fn convert(from: System, to: System, message: &[u8]) -> Result<Vec<u8>, Fault> {
    sys::convert(from as u32, to as u32, message)
        .map_err(|code| Fault::of(code).expect("the library answers faults alone"))
}
