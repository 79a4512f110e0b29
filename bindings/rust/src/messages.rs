//! Messages, one after another, and one in words.
use crate::errno::done;
use crate::{convert, sys, Errno, Fault, System};
use std::fmt;
use std::ops::Deref;

/// A message of a routing socket, lent. It is its bytes, and it is displayed in words, as `route -n monitor` shows one:
/// the fields of its header by their names, and each address on a line of its own, which ends in a newline.
///
/// ```
/// # fn main() -> Result<(), hoiskend::Errno> {
/// # use hoiskend::{Kind, World};
/// let mut world = World::new()?;
/// let socket = world.listen("a", 100, 0)?;
/// world.attach("le0", Kind::Broadcast, 6, &[8, 0, 0x20, 1, 2, 3])?;
/// world.add_address("le0", "10.0.0.1".parse().unwrap(), 8, true, None)?;
/// let heard = world.read(socket)?;
/// let added = heard.iter().find(|message| message.kind() == Ok(1)).unwrap();
/// assert_eq!(
///     added.to_string(),
///     "RTM_ADD: length 116, version 3, pid 0, seq 0, index 1\n\
///      \x20flags 00000101<UP,CLONING>\n\
///      \x20addrs 00000007<DST,GATEWAY,NETMASK>\n\
///      \x20DST 10.0.0.0\n\
///      \x20GATEWAY 10.0.0.1\n\
///      \x20NETMASK 255.0.0.0 (/8)\n",
/// );
/// # Ok(())
/// # }
/// ```
#[derive(Clone, Copy, Debug, PartialEq, Eq, Hash)]
pub struct Message<'a> {
    bytes: &'a [u8],
}

impl<'a> Message<'a> {
    /// The message of these bytes, which may come from elsewhere. Those that are no message are shown in hexadecimal,
    /// with the reason.
    ///
    /// ```
    /// use hoiskend::Message;
    /// let text = "no message: 0004\n the length is wrong\n";
    /// assert_eq!(Message::of(&[0, 4]).text().as_deref(), Ok(text));
    /// ```
    pub fn of(bytes: &'a [u8]) -> Message<'a> {
        Message { bytes }
    }

    /// Its bytes.
    pub fn as_bytes(self) -> &'a [u8] {
        self.bytes
    }

    /// The message in words. [`Errno::ENOBUFS`] where there is no memory; `Display` gives [`fmt::Error`] then, of which
    /// `write!` is an error, and `to_string` and `print!` panic.
    pub fn text(self) -> Result<String, Errno> {
        match sys::show(self.bytes) {
            Ok(text) => Ok(String::from_utf8(text).expect("the library writes ASCII")),
            Err(code) => Err(done(code).expect_err("0 gives a text")),
        }
    }
}

impl Message<'_> {
    /// The message in the layout of another system.
    pub fn to(self, system: System) -> Result<Vec<u8>, Fault> {
        convert(System::Bsd44, system, self.bytes)
    }
}

impl Deref for Message<'_> {
    type Target = [u8];

    fn deref(&self) -> &[u8] {
        self.bytes
    }
}

impl AsRef<[u8]> for Message<'_> {
    fn as_ref(&self) -> &[u8] {
        self.bytes
    }
}

impl fmt::Display for Message<'_> {
    fn fmt(&self, f: &mut fmt::Formatter<'_>) -> fmt::Result {
        f.write_str(&self.text().map_err(|_| fmt::Error)?)
    }
}

/// Messages of a routing socket or of a dump, in order: each as its bytes, of which the first two are its length. They
/// are displayed in words, one after another.
#[derive(Clone, Debug, Default, PartialEq, Eq, Hash)]
pub struct Messages {
    bytes: Vec<u8>,
}

/// The first message of these bytes, and those behind it.
fn first(bytes: &[u8]) -> Option<(&[u8], &[u8])> {
    let &[high, low, ..] = bytes else { return None };
    Some(bytes.split_at(usize::from(u16::from_be_bytes([high, low]))))
}

impl Messages {
    pub(crate) fn new(bytes: Vec<u8>) -> Messages {
        Messages { bytes }
    }

    /// The messages, lent.
    pub fn iter(&self) -> Iter<'_> {
        Iter { rest: &self.bytes }
    }

    /// Whether there is none.
    pub fn is_empty(&self) -> bool {
        self.bytes.is_empty()
    }

    /// All their bytes.
    pub fn as_bytes(&self) -> &[u8] {
        &self.bytes
    }
}

impl fmt::Display for Messages {
    fn fmt(&self, f: &mut fmt::Formatter<'_>) -> fmt::Result {
        self.iter().try_for_each(|message| message.fmt(f))
    }
}

/// An iterator over lent messages.
#[derive(Clone, Debug)]
pub struct Iter<'a> {
    rest: &'a [u8],
}

impl<'a> Iterator for Iter<'a> {
    type Item = Message<'a>;

    fn next(&mut self) -> Option<Message<'a>> {
        let (message, behind) = first(self.rest)?;
        self.rest = behind;
        Some(Message::of(message))
    }
}

impl<'a> IntoIterator for &'a Messages {
    type Item = Message<'a>;
    type IntoIter = Iter<'a>;

    fn into_iter(self) -> Iter<'a> {
        self.iter()
    }
}

/// An iterator over messages, each as its bytes.
#[derive(Clone, Debug)]
pub struct IntoIter {
    bytes: Vec<u8>,
    at: usize,
}

impl Iterator for IntoIter {
    type Item = Vec<u8>;

    fn next(&mut self) -> Option<Vec<u8>> {
        let (message, _) = first(&self.bytes[self.at..])?;
        self.at += message.len();
        Some(message.to_vec())
    }
}

impl IntoIterator for Messages {
    type Item = Vec<u8>;
    type IntoIter = IntoIter;

    fn into_iter(self) -> IntoIter {
        IntoIter {
            bytes: self.bytes,
            at: 0,
        }
    }
}

/// What a dump gives.
#[derive(Clone, Debug, PartialEq, Eq, Hash)]
pub struct Dump {
    /// An RTM_GET for each route that fits, in the order of the table.
    pub messages: Messages,
    /// Whether they all fit.
    pub is_whole: bool,
}
