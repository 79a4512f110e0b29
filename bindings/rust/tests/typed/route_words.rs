//! The words of a `route` line as a socket, a call and a request, read as the grammar reads them:
//! `None` where it has no such line.
use super::bytes_of;
use hoiskend::{Errno, Gateway, LinkAddress, Request, SetMetrics, Socket, World};
use std::net::Ipv4Addr;

/// The call that makes a request.
pub type Asking = fn(&mut World, Socket, &Request) -> Result<(), Errno>;

/// The call of a verb.
pub fn asking(verb: &str) -> Option<Asking> {
    let call: Asking = match verb {
        "add" => World::add_route,
        "delete" => World::delete_route,
        "change" => World::change_route,
        "get" => World::get_route,
        "lock" => World::lock_route,
        _ => return None,
    };
    Some(call)
}

/// The socket of an id that a line can have.
pub fn socket(id: &str) -> Option<Socket> {
    let is_one = id
        .bytes()
        .all(|byte| byte.is_ascii_lowercase() || byte.is_ascii_digit());
    Socket::of(id).filter(|_| is_one)
}

/// The request of a number, a destination and options; `None` also where these have `ifp` or `ifa`,
/// which a request hasn't.
pub fn request(seq: &str, to: &str, options: &[&str]) -> Option<Request> {
    let (destination, mask) = destination(to)?;
    let mut options = Options { words: options };
    // The fields are read in the order in which they stand here, which is the line's.
    let request = Request {
        seq: number(seq)?,
        gateway: options.read("via", gateway)?,
        genmask: options.read("genmask", prefix)?,
        flags: options.read("flags", bits)?.unwrap_or(0),
        inits: options.read("inits", bits)?.unwrap_or(0),
        locks: options.read("locks", bits)?.unwrap_or(0),
        metrics: SetMetrics {
            mtu: options.read("mtu", number)?,
            hopcount: options.read("hopcount", number)?,
            expire: options.read("expire", number)?,
            recvpipe: options.read("recvpipe", number)?,
            sendpipe: options.read("sendpipe", number)?,
            ssthresh: options.read("ssthresh", number)?,
            rtt: options.read("rtt", number)?,
            rttvar: options.read("rttvar", number)?,
        },
        ..Request::of(destination, mask)
    };
    options.words.is_empty().then_some(request)
}

/// The options that aren't read yet.
struct Options<'a> {
    words: &'a [&'a str],
}

impl Options<'_> {
    /// What the next option says, where it has this name; `None` where its word is none.
    fn read<T>(&mut self, name: &str, read: fn(&str) -> Option<T>) -> Option<Option<T>> {
        match self.words {
            [next, word, rest @ ..] if *next == name => {
                self.words = rest;
                read(word).map(Some)
            }
            _ => Some(None),
        }
    }
}

/// `A`, `A/P`, or `default`, which is 0.0.0.0/0.
fn destination(word: &str) -> Option<(Ipv4Addr, Option<u8>)> {
    if word == "default" {
        return Some((Ipv4Addr::UNSPECIFIED, Some(0)));
    }
    match word.split_once('/') {
        Some((address, bits)) => Some((inet(address)?, Some(prefix(bits)?))),
        None => Some((inet(word)?, None)),
    }
}

/// An address, or `link:` and the bytes of one of the link layer.
fn gateway(word: &str) -> Option<Gateway> {
    match word.strip_prefix("link:") {
        Some(digits) => link(digits).map(Gateway::Link),
        None => inet(word).map(Gateway::Inet),
    }
}

fn link(digits: &str) -> Option<LinkAddress> {
    let is_spelled = digits.len() % 2 == 0 && are_hexadecimal(digits);
    is_spelled
        .then(|| bytes_of(digits))
        .as_deref()
        .and_then(LinkAddress::new)
}

fn inet(word: &str) -> Option<Ipv4Addr> {
    word.parse().ok()
}

fn prefix(word: &str) -> Option<u8> {
    number(word)?.try_into().ok().filter(|bits| *bits <= 32)
}

/// A decimal as it is printed.
fn number(word: &str) -> Option<u32> {
    word.parse()
        .ok()
        .filter(|number: &u32| number.to_string() == word)
}

/// A number of 1 to 8 hexadecimal digits.
fn bits(word: &str) -> Option<u32> {
    let is_one = word.len() <= 8 && are_hexadecimal(word);
    u32::from_str_radix(word, 16).ok().filter(|_| is_one)
}

fn are_hexadecimal(digits: &str) -> bool {
    digits.bytes().all(|digit| digit.is_ascii_hexdigit())
}
