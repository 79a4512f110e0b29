//! The routing core of 4.4BSD-Lite for IPv4, proved: worlds of interfaces, addresses, routes and routing sockets.
//!
//! A [`World`] is told what happens, and tells what a kernel would: the route that a packet takes, the messages that
//! each routing socket hears. It does exactly what Hoiskend's machine on plain lists does, which is proved of the
//! library below this package, or answers [`Errno::ENOBUFS`] and has changed nothing.
//!
//! ```
//! use hoiskend::{Kind, World};
//! use std::net::Ipv4Addr;
//!
//! # fn main() -> Result<(), hoiskend::Errno> {
//! let mut world = World::new()?;
//! world.attach("le0", Kind::Broadcast, 6, &[8, 0, 0x20, 1, 2, 3])?;
//! world.add_address("le0", Ipv4Addr::new(10, 0, 0, 1), 8, true, None)?;
//! let route = world.packet(Ipv4Addr::new(10, 9, 9, 9))?;
//! assert_eq!((route.index, route.prefix), (1, None));
//! # Ok(())
//! # }
//! ```
//!
//! A [`Request`] says what is asked of a route, and the routing sockets hear what came of it:
//!
//! ```
//! use hoiskend::net_route::{RTA_GATEWAY, RTF_DONE, RTF_GATEWAY, RTF_UP, RTM_ADD};
//! use hoiskend::{Address, Gateway, Kind, Request, World};
//! use std::net::Ipv4Addr;
//!
//! # fn main() -> Result<(), Box<dyn std::error::Error>> {
//! let mut world = World::new()?;
//! world.attach("le0", Kind::Broadcast, 6, &[8, 0, 0x20, 1, 2, 3])?;
//! world.add_address("le0", Ipv4Addr::new(10, 0, 0, 1), 8, true, None)?;
//! let socket = world.listen("rd", 88, 0)?;
//! let router = Ipv4Addr::new(10, 0, 0, 2);
//! let mut request = Request::of(Ipv4Addr::new(20, 0, 0, 0), Some(8));
//! request.gateway = Some(Gateway::Inet(router));
//! request.flags = RTF_UP | RTF_GATEWAY;
//! request.metrics.mtu = Some(1400);
//! world.add_route(socket, &request)?;
//! let heard = world.read(socket)?;
//! let added = heard.iter().next().unwrap();
//! assert_eq!((added.kind()?, added.pid()?, added.metrics()?.mtu), (RTM_ADD, 88, 1400));
//! assert_eq!(added.flags()?, RTF_UP | RTF_GATEWAY | RTF_DONE);
//! assert_eq!(added.address(RTA_GATEWAY)?, Some(Address::Inet(router)));
//! # Ok(())
//! # }
//! ```
//!
//! Messages are the bytes of a 32-bit machine that stores the highest byte first; Hoiskend's docs/FORMATS.md has them. A
//! [`Message`] is taken apart by its methods and displayed in words, and [`convert`] gives it in the layout of a system of
//! today. [`net_route`] has the numbers by name.
#![deny(unsafe_code, missing_docs)]

mod errno;
mod messages;
pub mod net_route;
mod parts;
mod request;
mod route;
mod structs;
mod sys;
mod system;
mod there;
mod world;

pub use errno::{Errno, LineError};
pub use messages::{Dump, Message, Messages};
pub use parts::{Address, Metrics};
pub use request::{Request, SetMetrics};
pub use route::{Gateway, LinkAddress, Route};
pub use system::{convert, Fault, System};
pub use there::{Entry, Interface, InterfaceAddress, SocketState};
pub use world::{Kind, Socket, World};
