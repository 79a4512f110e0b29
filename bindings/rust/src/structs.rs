//! The structs of hoiskend.h, but that of a world.

use crate::net_route::LINK_BYTES;

const NAME_BYTES: usize = 9;
const LINK_ADDRESS_BYTES: usize = 8;

/// A route as the library writes it.
#[repr(C)]
#[derive(Clone, Copy, Default)]
pub(crate) struct Route {
    pub(crate) key: u32,
    pub(crate) gateway: u32,
    pub(crate) index: u16,
    pub(crate) flags: u16,
    pub(crate) rank: u8,
    pub(crate) family: u8,
    pub(crate) drops: bool,
    pub(crate) link_n: u8,
    pub(crate) link: [u8; LINK_BYTES],
}

/// A request for a route as the library reads it.
#[repr(C)]
#[derive(Clone, Copy, Default)]
pub(crate) struct Request {
    pub(crate) destination: u32,
    pub(crate) gateway: u32,
    pub(crate) flags: u32,
    pub(crate) seq: u32,
    pub(crate) inits: u32,
    pub(crate) locks: u32,
    pub(crate) mtu: u32,
    pub(crate) hopcount: u32,
    pub(crate) expire: u32,
    pub(crate) recvpipe: u32,
    pub(crate) sendpipe: u32,
    pub(crate) ssthresh: u32,
    pub(crate) rtt: u32,
    pub(crate) rttvar: u32,
    pub(crate) prefix: u8,
    pub(crate) genmask: u8,
    pub(crate) family: u8,
    pub(crate) link_n: u8,
    pub(crate) link: [u8; LINK_BYTES],
}

/// An interface as the library writes it.
#[repr(C)]
#[derive(Clone, Copy, Default)]
pub(crate) struct Interface {
    pub(crate) index: u16,
    pub(crate) kind: u8,
    pub(crate) type_number: u8,
    pub(crate) name_n: u8,
    pub(crate) link_n: u8,
    pub(crate) name: [u8; NAME_BYTES],
    pub(crate) link: [u8; LINK_ADDRESS_BYTES],
}

/// An interface's address as the library writes it.
#[repr(C)]
#[derive(Clone, Copy, Default)]
pub(crate) struct Ifaddr {
    pub(crate) address: u32,
    pub(crate) far: u32,
    pub(crate) prefix: u8,
    pub(crate) cloning: bool,
    pub(crate) routed: bool,
}

/// An open socket as the library writes it.
#[repr(C)]
#[derive(Clone, Copy, Default)]
pub(crate) struct Socket {
    pub(crate) lost: u64,
    pub(crate) waiting: usize,
    pub(crate) pid: u32,
    pub(crate) protocol: u8,
    pub(crate) loopback: bool,
    pub(crate) id_n: u8,
    pub(crate) id: [u8; NAME_BYTES],
}

/// A route of the table as the library writes it.
#[repr(C)]
#[derive(Clone, Copy, Default)]
pub(crate) struct Entry {
    pub(crate) route: Route,
    pub(crate) use_count: u32,
    pub(crate) locks: u32,
    pub(crate) mtu: u32,
    pub(crate) hopcount: u32,
    pub(crate) expire: u32,
    pub(crate) recvpipe: u32,
    pub(crate) sendpipe: u32,
    pub(crate) ssthresh: u32,
    pub(crate) rtt: u32,
    pub(crate) rttvar: u32,
    pub(crate) pksent: u32,
    pub(crate) genmask: u8,
}

/// The fields of a message's header as the library writes them.
#[repr(C)]
#[derive(Clone, Copy, Default)]
pub(crate) struct Header {
    pub(crate) flags: u32,
    pub(crate) addrs: u32,
    pub(crate) pid: u32,
    pub(crate) seq: u32,
    pub(crate) error: u32,
    pub(crate) use_count: u32,
    pub(crate) inits: u32,
    pub(crate) locks: u32,
    pub(crate) mtu: u32,
    pub(crate) hopcount: u32,
    pub(crate) expire: u32,
    pub(crate) recvpipe: u32,
    pub(crate) sendpipe: u32,
    pub(crate) ssthresh: u32,
    pub(crate) rtt: u32,
    pub(crate) rttvar: u32,
    pub(crate) pksent: u32,
    pub(crate) metric: u32,
    pub(crate) index: u16,
    pub(crate) kind: u8,
}

/// An address in a message as the library writes it.
#[repr(C)]
#[derive(Clone, Copy, Default)]
pub(crate) struct Sockaddr {
    pub(crate) at: usize,
    pub(crate) inet: u32,
    pub(crate) n: u8,
    pub(crate) form: u8,
    pub(crate) bits: u8,
    pub(crate) family: u8,
}
