//! Worlds, and what they are told.
use crate::errno::done;
use crate::sys::Handle;
use crate::{convert, Dump, Errno, Fault, LineError, Messages, Request, Route, System};
use std::net::Ipv4Addr;

/// The kinds of interfaces.
#[derive(Clone, Copy, Debug, PartialEq, Eq, Hash)]
pub enum Kind {
    /// As Ethernet: its addresses have a broadcast address.
    Broadcast = 0,
    /// The machine itself.
    Loopback = 1,
    /// Its addresses have another end.
    PointToPoint = 2,
}

/// A routing socket, by its id. Once it is closed each call with it answers [`Errno::EBADF`]; of another world it names
/// that world's socket of the same id, if there is one.
#[derive(Clone, Copy, Debug, PartialEq, Eq, Hash)]
pub struct Socket {
    id: [u8; 8],
    n: u8,
}

impl Socket {
    /// The socket of this id, or `None` where that isn't of 1 to 8 bytes.
    ///
    /// ```
    /// # fn main() -> Result<(), hoiskend::Errno> {
    /// use hoiskend::{Socket, World};
    /// let mut world = World::new()?;
    /// assert_eq!(world.listen("a", 100, 0)?, Socket::of("a").unwrap());
    /// assert_eq!(Socket::of("nine bytes"), None);
    /// # Ok(())
    /// # }
    /// ```
    pub fn of(id: impl AsRef<[u8]>) -> Option<Socket> {
        let text = id.as_ref();
        let mut id = [0; 8];
        (1..=id.len()).contains(&text.len()).then(|| {
            id[..text.len()].copy_from_slice(text);
            Socket {
                id,
                n: text.len() as u8,
            }
        })
    }

    /// Its id.
    pub fn id(&self) -> &[u8] {
        &self.id[..usize::from(self.n)]
    }
}

/// A world of interfaces, addresses, routes and routing sockets, which begins empty and shares nothing with others.
///
/// Each call does one command. A name or an id of other than 1 to 8 bytes, and what a call says besides, is refused
/// [`Errno::EINVAL`]; [`Errno::ENOBUFS`] says that there was no memory, and then nothing has changed. The header
/// hoiskend.h has each call's errnos in order, and what a call is owed: 16,384 bytes of the thread's stack, and a
/// processor of x86-64-v2.
///
/// A world can be sent to another thread, and not be shared:
///
/// ```
/// # use hoiskend::World;
/// let world = World::new().unwrap();
/// std::thread::spawn(move || drop(world)).join().unwrap();
/// ```
///
/// ```compile_fail
/// # use hoiskend::World;
/// fn is_sync<T: Sync>() {}
/// is_sync::<World>();
/// ```
#[derive(Debug)]
pub struct World {
    pub(crate) handle: Handle,
}

impl World {
    /// An empty world. [`Errno::ENOBUFS`] where there is no memory for it.
    pub fn new() -> Result<World, Errno> {
        let mut handle = Handle::closed();
        done(handle.open())?;
        Ok(World { handle })
    }

    /// Attaches an interface with this number of <net/if_types.h> and link-layer address, of at most 8 bytes.
    pub fn attach(
        &mut self,
        name: impl AsRef<[u8]>,
        kind: Kind,
        type_number: u8,
        link: &[u8],
    ) -> Result<(), Errno> {
        done(
            self.handle
                .attach(name.as_ref(), kind as u8, type_number, link),
        )
    }

    /// Gives an interface an address with a mask of `prefix` bits, and adds its route, which clones where `cloning`.
    /// `far` is the other end, of [`Kind::PointToPoint`] alone. Where that route is there already
    /// ([`Errno::EEXIST`]) the address stays without it, and counts among the 65,535 that a world takes.
    pub fn add_address(
        &mut self,
        name: impl AsRef<[u8]>,
        address: Ipv4Addr,
        prefix: u8,
        cloning: bool,
        far: Option<Ipv4Addr>,
    ) -> Result<(), Errno> {
        let far = far.map(u32::from);
        done(
            self.handle
                .add_address(name.as_ref(), address.into(), prefix, cloning, far),
        )
    }

    /// Removes an address, and its route.
    pub fn remove_address(
        &mut self,
        name: impl AsRef<[u8]>,
        address: Ipv4Addr,
    ) -> Result<(), Errno> {
        done(self.handle.remove_address(name.as_ref(), address.into()))
    }

    /// Opens a routing socket of this process, which hears the messages of this family alone, as
    /// [`AF_INET`](crate::net_route::AF_INET), or where it is 0 of all.
    pub fn listen(
        &mut self,
        id: impl AsRef<[u8]>,
        pid: u32,
        protocol: u8,
    ) -> Result<Socket, Errno> {
        let socket = Socket::of(id).ok_or(Errno::EINVAL)?;
        done(self.handle.listen(socket.id(), pid, protocol))?;
        Ok(socket)
    }

    /// Closes a socket.
    pub fn shut(&mut self, socket: Socket) -> Result<(), Errno> {
        done(self.handle.shut(socket.id()))
    }

    /// Whether the socket hears the replies to its own writes, which it does at first.
    pub fn set_loopback(&mut self, socket: Socket, on: bool) -> Result<(), Errno> {
        done(self.handle.loopback(socket.id(), on))
    }

    /// Writes a message to a socket. Sockets hear what was done, and what was refused, but not a write to no socket,
    /// one of too many bytes, or one of another length than it says.
    ///
    /// ```
    /// # fn main() -> Result<(), hoiskend::Errno> {
    /// # use hoiskend::{Errno, World};
    /// let mut world = World::new()?;
    /// let socket = world.listen("a", 100, 0)?;
    /// assert_eq!(world.write(socket, &[0; 8193]), Err(Errno::EMSGSIZE));
    /// world.shut(socket)?;
    /// assert_eq!(world.write(socket, &[0; 8193]), Err(Errno::EBADF));
    /// # Ok(())
    /// # }
    /// ```
    pub fn write(&mut self, socket: Socket, message: &[u8]) -> Result<(), Errno> {
        done(self.handle.write(socket.id(), message))
    }

    /// Writes to a socket the message that adds a route; the sockets hear it, and what it is answered.
    ///
    /// ```
    /// # fn main() -> Result<(), hoiskend::Errno> {
    /// # use hoiskend::{Errno, Gateway, Kind, Request, World};
    /// # use std::net::Ipv4Addr;
    /// use hoiskend::net_route::{RTF_GATEWAY, RTF_UP};
    /// let mut world = World::new()?;
    /// world.attach("le0", Kind::Broadcast, 6, &[])?;
    /// world.add_address("le0", Ipv4Addr::new(10, 0, 0, 1), 8, false, None)?;
    /// let socket = world.listen("a", 100, 0)?;
    /// let mut route = Request::of(Ipv4Addr::new(20, 0, 0, 0), Some(8));
    /// route.gateway = Some(Gateway::Inet(Ipv4Addr::new(10, 0, 0, 2)));
    /// route.flags = RTF_UP | RTF_GATEWAY;
    /// route.metrics.mtu = Some(1400);
    /// world.add_route(socket, &route)?;
    /// assert_eq!(world.add_route(socket, &route), Err(Errno::EEXIST));
    /// world.get_route(socket, &route)?;
    /// world.change_route(socket, &route)?;
    /// world.lock_route(socket, &route)?;
    /// world.delete_route(socket, &route)?;
    /// assert_eq!(world.delete_route(socket, &route), Err(Errno::ESRCH));
    /// # Ok(())
    /// # }
    /// ```
    pub fn add_route(&mut self, socket: Socket, request: &Request) -> Result<(), Errno> {
        done(self.handle.add_route(socket.id(), &request.told()))
    }

    /// Writes the message that deletes a route.
    pub fn delete_route(&mut self, socket: Socket, request: &Request) -> Result<(), Errno> {
        done(self.handle.delete_route(socket.id(), &request.told()))
    }

    /// Writes the message that changes a route.
    pub fn change_route(&mut self, socket: Socket, request: &Request) -> Result<(), Errno> {
        done(self.handle.change_route(socket.id(), &request.told()))
    }

    /// Writes the message that asks for a route.
    pub fn get_route(&mut self, socket: Socket, request: &Request) -> Result<(), Errno> {
        done(self.handle.get_route(socket.id(), &request.told()))
    }

    /// Writes the message that locks metrics of a route.
    ///
    /// ```
    /// # fn main() -> Result<(), hoiskend::Errno> {
    /// # use hoiskend::{Kind, Request, World};
    /// # use std::net::Ipv4Addr;
    /// use hoiskend::net_route::RTV_MTU;
    /// let mut world = World::new()?;
    /// world.attach("le0", Kind::Broadcast, 6, &[])?;
    /// world.add_address("le0", Ipv4Addr::new(10, 0, 0, 1), 8, false, None)?;
    /// let socket = world.listen("a", 100, 0)?;
    /// let network = Ipv4Addr::new(10, 0, 0, 0);
    /// let mut lock = Request::of(network, Some(8));
    /// (lock.inits, lock.locks) = (RTV_MTU, RTV_MTU);
    /// world.lock_route(socket, &lock)?;
    /// assert_eq!(world.route(network, Some(8))?.metrics.locks, RTV_MTU);
    /// # Ok(())
    /// # }
    /// ```
    pub fn lock_route(&mut self, socket: Socket, request: &Request) -> Result<(), Errno> {
        done(self.handle.lock_route(socket.id(), &request.told()))
    }

    /// Writes a message of another system. One that has no counterpart is refused at once, by its fault's errno, and
    /// heard by nobody.
    pub fn write_as(
        &mut self,
        system: System,
        socket: Socket,
        message: &[u8],
    ) -> Result<(), Errno> {
        let own = convert(system, System::Bsd44, message).map_err(Fault::errno)?;
        self.write(socket, &own)
    }

    /// Takes the messages that a socket has heard.
    ///
    /// ```
    /// # fn main() -> Result<(), hoiskend::Errno> {
    /// # use hoiskend::{Kind, World};
    /// use hoiskend::net_route::{RTM_ADD, RTM_NEWADDR};
    /// let mut world = World::new()?;
    /// let socket = world.listen("a", 100, 0)?;
    /// world.attach("lo0", Kind::Loopback, 24, &[])?;
    /// world.add_address("lo0", "127.0.0.1".parse().unwrap(), 8, false, None)?;
    /// let types: Vec<_> = world.read(socket)?.iter().map(|message| message.kind()).collect();
    /// assert_eq!(types, [Ok(RTM_NEWADDR), Ok(RTM_ADD)]);
    /// assert!(world.read(socket)?.is_empty());
    /// # Ok(())
    /// # }
    /// ```
    pub fn read(&mut self, socket: Socket) -> Result<Messages, Errno> {
        done(self.handle.read(socket.id()))?;
        Ok(Messages::new(self.handle.fetch()))
    }

    /// How many messages a socket has lost since it was opened.
    pub fn lost(&mut self, socket: Socket) -> Result<u64, Errno> {
        let mut lost = 0;
        done(self.handle.lost(socket.id(), &mut lost))?;
        Ok(lost)
    }

    /// The route that a packet takes, with its use counted. [`Errno::EHOSTUNREACH`] where there is none. Where a
    /// clone's place is taken it is the route that clones, and the sockets hear RTM_MISS.
    pub fn packet(&mut self, destination: Ipv4Addr) -> Result<Route, Errno> {
        let mut route = Default::default();
        done(self.handle.packet(destination.into(), &mut route))?;
        Ok(route.into())
    }

    /// Follows an ICMP redirect that `author` sent. [`Errno::EEXIST`] where a host's route is to be added and there is
    /// one, without RTF_HOST.
    pub fn redirect(
        &mut self,
        destination: Ipv4Addr,
        gateway: Ipv4Addr,
        author: Ipv4Addr,
    ) -> Result<(), Errno> {
        done(
            self.handle
                .redirect(destination.into(), gateway.into(), author.into()),
        )
    }

    /// Gives up the route of an address, as TCP does when nothing comes back; it is removed where it has RTF_DYNAMIC.
    pub fn losing(&mut self, address: Ipv4Addr) -> Result<(), Errno> {
        done(self.handle.losing(address.into()))
    }

    /// How many bytes to ask for a dump of all routes, or of those with a flag of the filter.
    pub fn dump_size(&mut self, filter: Option<u32>) -> Result<u64, Errno> {
        let mut size = 0;
        done(self.handle.dump_size(filter, &mut size))?;
        Ok(size)
    }

    /// The routes, or those with a flag of the filter: as many as fit into `room` bytes.
    pub fn dump(&mut self, filter: Option<u32>, room: u32) -> Result<Dump, Errno> {
        let answer = done(self.handle.dump(filter, room));
        match answer {
            Ok(()) | Err(Errno::ENOMEM) => Ok(Dump {
                messages: Messages::new(self.handle.fetch()),
                is_whole: answer.is_ok(),
            }),
            Err(errno) => Err(errno),
        }
    }

    /// Does what a line of a script says, without its newline; [`World::text`] is what a transcript has of it.
    ///
    /// ```
    /// # fn main() -> Result<(), hoiskend::Errno> {
    /// # use hoiskend::{Errno, LineError, World};
    /// let mut world = World::new()?;
    /// assert_eq!(world.line("open a 100 any"), Ok(()));
    /// assert_eq!(world.text(), "ok\n");
    /// assert_eq!(world.line("read b"), Err(LineError::Refused(Errno::EBADF)));
    /// assert_eq!(world.text(), "err 9\n");
    /// assert_eq!(world.line("sing"), Err(LineError::Bad));
    /// assert_eq!(world.text(), "bad\n");
    /// # Ok(())
    /// # }
    /// ```
    pub fn line(&mut self, line: impl AsRef<[u8]>) -> Result<(), LineError> {
        match self.handle.line(line.as_ref()) {
            crate::sys::BAD => Err(LineError::Bad),
            code => done(code).map_err(LineError::Refused),
        }
    }

    /// What a transcript has of the last command or line: its lines, each ended by a newline.
    pub fn text(&mut self) -> String {
        String::from_utf8(self.handle.text()).expect("the library writes ASCII")
    }
}
