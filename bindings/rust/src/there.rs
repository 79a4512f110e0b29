//! What is there: interfaces, their addresses, open sockets, and routes as the table has them.
use crate::errno::done;
use crate::route::HOST;
use crate::{sys, Errno, Kind, Metrics, Route, Socket, World};
use std::net::Ipv4Addr;

/// An interface.
#[derive(Clone, Debug, PartialEq, Eq, Hash)]
pub struct Interface {
    /// Its number, from 1.
    pub index: u16,
    /// Its name, of 1 to 8 bytes.
    pub name: Vec<u8>,
    /// Its kind.
    pub kind: Kind,
    /// That of <net/if_types.h>.
    pub type_number: u8,
    /// Its link-layer address, of at most 8 bytes.
    pub link: Vec<u8>,
}

/// An address of an interface.
#[derive(Clone, Copy, Debug, PartialEq, Eq, Hash)]
pub struct InterfaceAddress {
    /// The address itself.
    pub address: Ipv4Addr,
    /// The broadcast address, or of [`Kind::Loopback`] the address itself, or of [`Kind::PointToPoint`] the other end.
    pub far: Ipv4Addr,
    /// The bits of its mask.
    pub prefix: u8,
    /// Whether the route that came with it clones.
    pub cloning: bool,
    /// Whether that route was added.
    pub routed: bool,
}

/// An open socket, and what waits for it.
#[derive(Clone, Copy, Debug, PartialEq, Eq, Hash)]
pub struct SocketState {
    /// The socket itself.
    pub socket: Socket,
    /// The process that opened it.
    pub pid: u32,
    /// The family that it hears, or 0 for all.
    pub protocol: u8,
    /// Whether it hears the replies to its own writes.
    pub loopback: bool,
    /// How many bytes the messages have that wait for it.
    pub waiting: usize,
    /// How many messages it has lost since it was opened.
    pub lost: u64,
}

/// A route as the table has it.
#[derive(Clone, Copy, Debug, PartialEq, Eq, Hash)]
pub struct Entry {
    /// The route, as [`World::packet`] tells it.
    pub route: Route,
    /// How many packets took it; it wraps.
    pub use_count: u32,
    /// Its metrics.
    pub metrics: Metrics,
    /// The bits of the mask of its clones, or `None` where it has none.
    pub genmask: Option<u8>,
}

/// What is there. These calls change nothing, not even what [`World::text`] gives.
impl World {
    /// The interfaces, in the order of their numbers, which are from 1 and without a gap.
    ///
    /// ```
    /// # fn main() -> Result<(), hoiskend::Errno> {
    /// # use hoiskend::{Interface, Kind, World};
    /// let mut world = World::new()?;
    /// world.attach("le0", Kind::Broadcast, 6, &[8, 0, 0x20, 1, 2, 3])?;
    /// let le0 = Interface {
    ///     index: 1,
    ///     name: b"le0".to_vec(),
    ///     kind: Kind::Broadcast,
    ///     type_number: 6,
    ///     link: vec![8, 0, 0x20, 1, 2, 3],
    /// };
    /// assert_eq!(world.interfaces(), [le0]);
    /// # Ok(())
    /// # }
    /// ```
    pub fn interfaces(&mut self) -> Vec<Interface> {
        let told = |index| {
            let mut found = Default::default();
            let answer = done(self.handle.interface_of(index, &mut found));
            answer.ok().map(|()| found.into())
        };
        (1..).map_while(told).collect()
    }

    /// The addresses of the interface with this number, but those that were removed, in the order in which they were
    /// added. [`Errno::ENXIO`] where there is no such interface.
    ///
    /// ```
    /// # fn main() -> Result<(), hoiskend::Errno> {
    /// # use hoiskend::{Errno, InterfaceAddress, Kind, World};
    /// # use std::net::Ipv4Addr;
    /// let mut world = World::new()?;
    /// world.attach("le0", Kind::Broadcast, 6, &[])?;
    /// assert!(world.addresses(1)?.is_empty());
    /// world.add_address("le0", Ipv4Addr::new(10, 0, 0, 1), 8, true, None)?;
    /// let own = InterfaceAddress {
    ///     address: Ipv4Addr::new(10, 0, 0, 1),
    ///     far: Ipv4Addr::new(10, 255, 255, 255),
    ///     prefix: 8,
    ///     cloning: true,
    ///     routed: true,
    /// };
    /// assert_eq!(world.addresses(1)?, [own]);
    /// assert_eq!(world.addresses(2), Err(Errno::ENXIO));
    /// # Ok(())
    /// # }
    /// ```
    pub fn addresses(&mut self, index: u16) -> Result<Vec<InterfaceAddress>, Errno> {
        let (mut place, mut found, mut addresses) = (0, Default::default(), Vec::new());
        loop {
            match done(self.handle.next_address(index, &mut place, &mut found)) {
                Ok(()) => addresses.push(found.into()),
                Err(Errno::EADDRNOTAVAIL) => return Ok(addresses),
                Err(errno) => return Err(errno),
            }
        }
    }

    /// The open sockets, in the order in which they were opened.
    ///
    /// ```
    /// # fn main() -> Result<(), hoiskend::Errno> {
    /// # use hoiskend::{Kind, World};
    /// let mut world = World::new()?;
    /// let socket = world.listen("a", 100, 0)?;
    /// world.attach("le0", Kind::Broadcast, 6, &[])?;
    /// world.add_address("le0", "10.0.0.1".parse().unwrap(), 8, true, None)?;
    /// let state = world.sockets()[0];
    /// assert_eq!((state.socket, state.pid, state.loopback), (socket, 100, true));
    /// assert_eq!(state.waiting, world.read(socket)?.as_bytes().len());
    /// assert_eq!(world.sockets()[0].waiting, 0);
    /// # Ok(())
    /// # }
    /// ```
    pub fn sockets(&mut self) -> Vec<SocketState> {
        let told = |place| {
            let mut found = Default::default();
            let answer = done(self.handle.socket_at(place, &mut found));
            answer.ok().map(|()| found.into())
        };
        (0..).map_while(told).collect()
    }

    /// The route of the table with this key and bits of a mask, or of a host where they are `None`; no use is counted.
    /// [`Errno::EINVAL`] where they are more than 32, and [`Errno::ESRCH`] where there is no such route.
    ///
    /// ```
    /// # fn main() -> Result<(), hoiskend::Errno> {
    /// # use hoiskend::{Errno, Gateway, Kind, World};
    /// # use std::net::Ipv4Addr;
    /// let mut world = World::new()?;
    /// world.attach("le0", Kind::Broadcast, 6, &[])?;
    /// world.add_address("le0", Ipv4Addr::new(10, 0, 0, 1), 8, true, None)?;
    /// let entry = world.route(Ipv4Addr::new(10, 0, 0, 0), Some(8))?;
    /// assert_eq!(entry.route.gateway, Gateway::Inet(Ipv4Addr::new(10, 0, 0, 1)));
    /// assert_eq!((entry.metrics.mtu, entry.genmask), (0, None));
    /// let host = Ipv4Addr::new(10, 9, 9, 9);
    /// assert_eq!(world.route(host, None), Err(Errno::ESRCH));
    /// world.packet(host)?;
    /// assert_eq!(world.route(host, None)?.use_count, 1);
    /// assert_eq!(world.route(host, Some(33)), Err(Errno::EINVAL));
    /// # Ok(())
    /// # }
    /// ```
    pub fn route(&mut self, key: Ipv4Addr, prefix: Option<u8>) -> Result<Entry, Errno> {
        let rank = match prefix {
            None => HOST,
            Some(HOST) => return Err(Errno::EINVAL),
            Some(bits) => bits,
        };
        let mut found = Default::default();
        done(self.handle.route_of(key.into(), rank, &mut found))?;
        Ok(found.into())
    }
}

/// The kinds of interfaces, by their numbers.
const KINDS: [Kind; 3] = [Kind::Broadcast, Kind::Loopback, Kind::PointToPoint];

impl From<sys::Interface> for Interface {
    fn from(found: sys::Interface) -> Interface {
        Interface {
            index: found.index,
            name: found.name[..usize::from(found.name_n)].to_vec(),
            kind: KINDS[usize::from(found.kind)],
            type_number: found.type_number,
            link: found.link[..usize::from(found.link_n)].to_vec(),
        }
    }
}

impl From<sys::Ifaddr> for InterfaceAddress {
    fn from(found: sys::Ifaddr) -> InterfaceAddress {
        InterfaceAddress {
            address: found.address.into(),
            far: found.far.into(),
            prefix: found.prefix,
            cloning: found.cloning,
            routed: found.routed,
        }
    }
}

impl From<sys::Socket> for SocketState {
    fn from(found: sys::Socket) -> SocketState {
        let id = &found.id[..usize::from(found.id_n)];
        SocketState {
            socket: Socket::of(id).expect("an id has 1 to 8 bytes"),
            pid: found.pid,
            protocol: found.protocol,
            loopback: found.loopback,
            waiting: found.waiting,
            lost: found.lost,
        }
    }
}

impl From<sys::Entry> for Entry {
    fn from(found: sys::Entry) -> Entry {
        let metrics = Metrics {
            locks: found.locks,
            mtu: found.mtu,
            hopcount: found.hopcount,
            expire: found.expire,
            recvpipe: found.recvpipe,
            sendpipe: found.sendpipe,
            ssthresh: found.ssthresh,
            rtt: found.rtt,
            rttvar: found.rttvar,
            pksent: found.pksent,
        };
        Entry {
            route: found.route.into(),
            use_count: found.use_count,
            metrics,
            genmask: (found.genmask != HOST).then_some(found.genmask),
        }
    }
}
