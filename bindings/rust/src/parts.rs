//! A message taken apart: the fields of its header, and its addresses.
use crate::net_route::{
    RTA_AUTHOR, RTA_BRD, RTA_DST, RTA_GATEWAY, RTA_GENMASK, RTA_IFA, RTA_IFP, RTA_NETMASK,
};
use crate::{sys, Fault, LinkAddress, Message};
use std::net::Ipv4Addr;

/// An address as it stands in a message.
#[derive(Clone, Copy, Debug, PartialEq, Eq, Hash)]
pub enum Address<'a> {
    /// An IPv4 address.
    Inet(Ipv4Addr),
    /// A mask, by the number of its bits.
    Mask(u8),
    /// A link-layer address.
    Link(LinkAddress),
    /// What is none of these, without padding.
    Bytes(&'a [u8]),
}

/// The ten metrics of a route.
#[derive(Clone, Copy, Debug, Default, PartialEq, Eq, Hash)]
#[allow(missing_docs)]
pub struct Metrics {
    /// Which of the others are locked, by the bits RTV_..
    pub locks: u32,
    pub mtu: u32,
    pub hopcount: u32,
    pub expire: u32,
    pub recvpipe: u32,
    pub sendpipe: u32,
    pub ssthresh: u32,
    pub rtt: u32,
    pub rttvar: u32,
    pub pksent: u32,
}

/// The message's parts. Each call refuses fewer bytes than a header has, and bytes that say another length than they have
/// ([`Fault::Length`]). All else has a header, since a socket also hears what was refused; addresses are refused of another
/// version than 3 ([`Fault::Version`]), and where one passes the end ([`Fault::Overrun`]). A field that the header hasn't is
/// 0: RTM_NEWADDR and RTM_DELADDR have no pid, seq, errno, use, inits and metrics, and the others no metric.
///
/// ```
/// # fn main() -> Result<(), Box<dyn std::error::Error>> {
/// use hoiskend::net_route::{RTA_DST, RTA_NETMASK, RTF_CLONING, RTF_UP, RTM_ADD};
/// use hoiskend::{Address, Fault, Kind, Message, World};
/// let mut world = World::new()?;
/// let socket = world.listen("a", 100, 0)?;
/// world.attach("le0", Kind::Broadcast, 6, &[8, 0, 0x20, 1, 2, 3])?;
/// world.add_address("le0", "10.0.0.1".parse()?, 8, true, None)?;
/// let heard = world.read(socket)?;
/// let added = heard.iter().find(|message| message.kind() == Ok(RTM_ADD)).unwrap();
/// assert_eq!((added.index()?, added.flags()?), (1, RTF_UP | RTF_CLONING));
/// assert_eq!(added.address(RTA_DST)?, Some(Address::Inet("10.0.0.0".parse()?)));
/// assert_eq!(added.address(RTA_NETMASK)?, Some(Address::Mask(8)));
/// assert_eq!(Message::of(&added[..20]).kind(), Err(Fault::Length));
/// # Ok(())
/// # }
/// ```
impl<'a> Message<'a> {
    /// Its header, where its length is right.
    fn header(self) -> Result<sys::Header, Fault> {
        let (code, header) = sys::header(self.as_bytes());
        match Fault::of(code) {
            Some(Fault::Length) => Err(Fault::Length),
            _ => Ok(header),
        }
    }

    /// Its type, RTM_..
    pub fn kind(self) -> Result<u8, Fault> {
        self.header().map(|header| header.kind)
    }

    /// The number of its interface.
    pub fn index(self) -> Result<u16, Fault> {
        self.header().map(|header| header.index)
    }

    /// Its flags, RTF_..
    pub fn flags(self) -> Result<u32, Fault> {
        self.header().map(|header| header.flags)
    }

    /// The process that wrote it.
    pub fn pid(self) -> Result<u32, Fault> {
        self.header().map(|header| header.pid)
    }

    /// The number by which its writer knows it.
    pub fn seq(self) -> Result<u32, Fault> {
        self.header().map(|header| header.seq)
    }

    /// Why it was refused, or 0. [`crate::Errno::of`] has the errno of this number.
    pub fn errno(self) -> Result<u32, Fault> {
        self.header().map(|header| header.error)
    }

    /// How often its route was used.
    pub fn use_count(self) -> Result<u32, Fault> {
        self.header().map(|header| header.use_count)
    }

    /// Which metrics it sets, RTV_..
    pub fn inits(self) -> Result<u32, Fault> {
        self.header().map(|header| header.inits)
    }

    /// Its metrics.
    pub fn metrics(self) -> Result<Metrics, Fault> {
        self.header().map(|header| Metrics {
            locks: header.locks,
            mtu: header.mtu,
            hopcount: header.hopcount,
            expire: header.expire,
            recvpipe: header.recvpipe,
            sendpipe: header.sendpipe,
            ssthresh: header.ssthresh,
            rtt: header.rtt,
            rttvar: header.rttvar,
            pksent: header.pksent,
        })
    }

    /// The metric of RTM_NEWADDR and RTM_DELADDR.
    pub fn metric(self) -> Result<u32, Fault> {
        self.header().map(|header| header.metric)
    }

    /// The addresses that are there, in their order, each with its bit, RTA_..
    pub fn addresses(self) -> Result<impl Iterator<Item = (u32, Address<'a>)>, Fault> {
        match Fault::of(sys::header(self.as_bytes()).0) {
            Some(fault) => Err(fault),
            None => Ok(BITS.iter().filter_map(move |bit| {
                let address = self.address(*bit).ok().flatten();
                address.map(|address| (*bit, address))
            })),
        }
    }

    /// The address of this bit, where it is there.
    pub fn address(self, bit: u32) -> Result<Option<Address<'a>>, Fault> {
        let bytes = self.as_bytes();
        match sys::address(bytes, bit) {
            Ok(found) => Ok(Some(Address::of(&found, bytes))),
            Err(code) => Fault::of(code).map_or(Ok(None), Err),
        }
    }
}

/// The bits of addresses, in the order of these.
const BITS: [u32; 8] = [
    RTA_DST,
    RTA_GATEWAY,
    RTA_NETMASK,
    RTA_GENMASK,
    RTA_IFP,
    RTA_IFA,
    RTA_AUTHOR,
    RTA_BRD,
];

impl<'a> Address<'a> {
    /// What is told of an address in the message that has these bytes.
    fn of(found: &sys::Sockaddr, message: &'a [u8]) -> Address<'a> {
        let bytes = &message[found.at..][..usize::from(found.n)];
        match found.form {
            sys::FORM_INET => Address::Inet(found.inet.into()),
            sys::FORM_MASK => Address::Mask(found.bits),
            sys::FORM_LINK => Address::Link(LinkAddress::of(bytes)),
            _ => Address::Bytes(bytes),
        }
    }
}
