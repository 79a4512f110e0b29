//! Why a command is refused.
use std::error::Error;
use std::fmt;

/// The reasons for which a world refuses, spelled and numbered as in <sys/errno.h> of 4.4BSD. The host's may differ.
#[derive(Clone, Copy, Debug, PartialEq, Eq, Hash)]
#[non_exhaustive]
pub enum Errno {
    /// No such route.
    ESRCH = 3,
    /// No such interface.
    ENXIO = 6,
    /// No such socket.
    EBADF = 9,
    /// The buffer is too small.
    ENOMEM = 12,
    /// It is there already.
    EEXIST = 17,
    /// A malformed request.
    EINVAL = 22,
    /// Too many sockets.
    EMFILE = 24,
    /// Too many interfaces or addresses.
    ENOSPC = 28,
    /// A message that is too long.
    EMSGSIZE = 40,
    /// A message of another version.
    EPROTONOSUPPORT = 43,
    /// A message of another type.
    EOPNOTSUPP = 45,
    /// The address is in use.
    EADDRINUSE = 48,
    /// No such address on the interface.
    EADDRNOTAVAIL = 49,
    /// The gateway can't be reached.
    ENETUNREACH = 51,
    /// No memory: nothing has changed.
    ENOBUFS = 55,
    /// No route with that mask.
    ETOOMANYREFS = 59,
    /// No route to the host.
    EHOSTUNREACH = 65,
}

/// Each errno with its text.
const TEXTS: [(Errno, &str); 17] = [
    (Errno::ESRCH, "No such route"),
    (Errno::ENXIO, "No such interface"),
    (Errno::EBADF, "No such socket"),
    (Errno::ENOMEM, "The buffer is too small"),
    (Errno::EEXIST, "It is there already"),
    (Errno::EINVAL, "A malformed request"),
    (Errno::EMFILE, "Too many sockets"),
    (Errno::ENOSPC, "Too many interfaces or addresses"),
    (Errno::EMSGSIZE, "A message that is too long"),
    (Errno::EPROTONOSUPPORT, "A message of another version"),
    (Errno::EOPNOTSUPP, "A message of another type"),
    (Errno::EADDRINUSE, "The address is in use"),
    (Errno::EADDRNOTAVAIL, "No such address on the interface"),
    (Errno::ENETUNREACH, "The gateway can't be reached"),
    (Errno::ENOBUFS, "No memory"),
    (Errno::ETOOMANYREFS, "No route with that mask"),
    (Errno::EHOSTUNREACH, "No route to the host"),
];

impl Errno {
    /// Its number, as a message's errno field and a transcript show it.
    ///
    /// ```
    /// assert_eq!(hoiskend::Errno::ENETUNREACH.number(), 51);
    /// ```
    pub fn number(self) -> u32 {
        self as u32
    }

    /// The errno of this number, or `None` where the machine has none.
    ///
    /// ```
    /// use hoiskend::Errno;
    /// assert_eq!(Errno::of(55), Some(Errno::ENOBUFS));
    /// assert_eq!(Errno::of(1), None);
    /// ```
    pub fn of(number: u32) -> Option<Errno> {
        TEXTS
            .iter()
            .map(|(errno, _)| *errno)
            .find(|errno| errno.number() == number)
    }

    fn text(self) -> &'static str {
        TEXTS
            .iter()
            .find(|(errno, _)| *errno == self)
            .map_or("", |(_, text)| text)
    }
}

impl fmt::Display for Errno {
    fn fmt(&self, f: &mut fmt::Formatter<'_>) -> fmt::Result {
        write!(f, "{} (errno {})", self.text(), self.number())
    }
}

impl Error for Errno {}

/// Why a line of a script is not done.
#[derive(Clone, Copy, Debug, PartialEq, Eq, Hash)]
pub enum LineError {
    /// The grammar has no such line, which a transcript answers `bad`.
    Bad,
    /// The command is refused.
    Refused(Errno),
}

impl fmt::Display for LineError {
    fn fmt(&self, f: &mut fmt::Formatter<'_>) -> fmt::Result {
        match self {
            LineError::Bad => f.write_str("A line that is no command"),
            LineError::Refused(errno) => errno.fmt(f),
        }
    }
}

impl Error for LineError {
    fn source(&self) -> Option<&(dyn Error + 'static)> {
        match self {
            LineError::Bad => None,
            LineError::Refused(errno) => Some(errno),
        }
    }
}

/// What a call's number says: done, or why not. None but `hk_line` answers another number than an errno's.
pub(crate) fn done(number: u32) -> Result<(), Errno> {
    match number {
        0 => Ok(()),
        _ => Err(Errno::of(number).expect("the library answers errnos alone")),
    }
}
