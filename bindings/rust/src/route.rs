//! The route that a packet takes.
use crate::net_route::{AF_INET, AF_LINK, LINK_BYTES};
use crate::sys;
use std::fmt;
use std::net::Ipv4Addr;

/// The route that a packet takes.
#[derive(Clone, Copy, Debug, PartialEq, Eq, Hash)]
pub struct Route {
    /// Its destination.
    pub key: Ipv4Addr,
    /// The bits of its mask, or `None` where it is a host's and has none.
    pub prefix: Option<u8>,
    /// The gateway that it leads to.
    pub gateway: Gateway,
    /// The number of the interface that it leaves by, from 1.
    pub index: u16,
    /// RTF_.. of [`crate::net_route`].
    pub flags: u16,
    /// Whether the packet is dropped without an error (RTF_BLACKHOLE).
    pub drops: bool,
}

/// The gateway of a route.
#[derive(Clone, Copy, Debug, PartialEq, Eq, Hash)]
pub enum Gateway {
    /// An IPv4 address.
    Inet(Ipv4Addr),
    /// A link-layer address.
    Link(LinkAddress),
}

/// A link-layer address as a message writes it (`sockaddr_dl`): 8 to 32 bytes.
#[derive(Clone, Copy, PartialEq, Eq, Hash)]
pub struct LinkAddress {
    bytes: [u8; LINK_BYTES],
    n: u8,
}

impl LinkAddress {
    /// The address with these bytes, or `None` where they aren't 8 to 32, of which the first is their number and the second
    /// the family, [`AF_LINK`].
    pub fn new(sockaddr: &[u8]) -> Option<LinkAddress> {
        let n = sockaddr.len();
        let is_one = (8..=LINK_BYTES).contains(&n) && sockaddr[..2] == [n as u8, AF_LINK];
        is_one.then(|| LinkAddress::of(sockaddr))
    }

    /// That of 8 to 32 bytes.
    pub(crate) fn of(text: &[u8]) -> LinkAddress {
        let (mut bytes, n) = ([0; LINK_BYTES], text.len() as u8);
        bytes[..text.len()].copy_from_slice(text);
        LinkAddress { bytes, n }
    }

    /// The number of its interface.
    pub fn index(&self) -> u16 {
        u16::from_be_bytes([self.bytes[2], self.bytes[3]])
    }

    /// That of <net/if_types.h>.
    pub fn type_number(&self) -> u8 {
        self.bytes[4]
    }

    /// The name of its interface, as far as its bytes go.
    pub fn name(&self) -> &[u8] {
        self.part(8, self.bytes[5])
    }

    /// The address alone, as far as its bytes go.
    pub fn address(&self) -> &[u8] {
        self.part(8 + usize::from(self.bytes[5]), self.bytes[6])
    }

    fn part(&self, at: usize, n: u8) -> &[u8] {
        let rest = self.as_bytes().get(at..).unwrap_or(&[]);
        &rest[..rest.len().min(n.into())]
    }

    /// Its bytes, of which the first is their number and the second the family, [`AF_LINK`].
    pub fn as_bytes(&self) -> &[u8] {
        &self.bytes[..usize::from(self.n)]
    }
}

impl fmt::Debug for LinkAddress {
    fn fmt(&self, f: &mut fmt::Formatter<'_>) -> fmt::Result {
        f.debug_tuple("LinkAddress")
            .field(&self.as_bytes())
            .finish()
    }
}

/// What stands for the rank of a route without a mask.
pub(crate) const HOST: u8 = 33;

impl From<sys::Route> for Route {
    fn from(route: sys::Route) -> Route {
        let gateway = match route.family {
            AF_INET => Gateway::Inet(route.gateway.into()),
            _ => Gateway::Link(LinkAddress {
                bytes: route.link,
                n: route.link_n,
            }),
        };
        Route {
            key: route.key.into(),
            prefix: (route.rank != HOST).then_some(route.rank),
            gateway,
            index: route.index,
            flags: route.flags,
            drops: route.drops,
        }
    }
}
