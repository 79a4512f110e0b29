//! The numbers of messages by name, as <net/route.h> of 4.4BSD has them, and where the fields of a header begin.

/// The version of every message.
pub const RTM_VERSION: u8 = 3;
/// A route was added, or is to be.
pub const RTM_ADD: u8 = 1;
/// A route was removed, or is to be.
pub const RTM_DELETE: u8 = 2;
/// A route was changed, or is to be.
pub const RTM_CHANGE: u8 = 3;
/// A route as it stands, or the wish to see it.
pub const RTM_GET: u8 = 4;
/// The route is suspected to lead nowhere.
pub const RTM_LOSING: u8 = 5;
/// A redirect came; the errno says whether it was followed.
pub const RTM_REDIRECT: u8 = 6;
/// A look-up found no route, or one whose clone could not be made.
pub const RTM_MISS: u8 = 7;
/// Metrics were locked, or are to be.
pub const RTM_LOCK: u8 = 8;
/// No message is made of it.
pub const RTM_OLDADD: u8 = 9;
/// No message is made of it.
pub const RTM_OLDDEL: u8 = 10;
/// A cloned route wants its link-layer address.
pub const RTM_RESOLVE: u8 = 11;
/// An interface has a new address.
pub const RTM_NEWADDR: u8 = 12;
/// An interface lost an address.
pub const RTM_DELADDR: u8 = 13;
/// No message is made of it.
pub const RTM_IFINFO: u8 = 14;
/// The destination.
pub const RTA_DST: u32 = 0x1;
/// The gateway.
pub const RTA_GATEWAY: u32 = 0x2;
/// The mask of the destination.
pub const RTA_NETMASK: u32 = 0x4;
/// The mask of the routes that are cloned from this one.
pub const RTA_GENMASK: u32 = 0x8;
/// The interface, by its link-layer address or one of its addresses.
pub const RTA_IFP: u32 = 0x10;
/// The address of the interface.
pub const RTA_IFA: u32 = 0x20;
/// Who told of a redirect.
pub const RTA_AUTHOR: u32 = 0x40;
/// The broadcast address, or the far end of a point-to-point link.
pub const RTA_BRD: u32 = 0x80;
/// The route is usable.
pub const RTF_UP: u32 = 0x1;
/// The destination is reached through a gateway.
pub const RTF_GATEWAY: u32 = 0x2;
/// The destination is one host.
pub const RTF_HOST: u32 = 0x4;
/// Packets are refused.
pub const RTF_REJECT: u32 = 0x8;
/// A redirect made the route.
pub const RTF_DYNAMIC: u32 = 0x10;
/// A redirect changed the route.
pub const RTF_MODIFIED: u32 = 0x20;
/// The message was carried out.
pub const RTF_DONE: u32 = 0x40;
/// The mask is there.
pub const RTF_MASK: u32 = 0x80;
/// Using the route clones it.
pub const RTF_CLONING: u32 = 0x100;
/// A daemon outside resolves the route's clones.
pub const RTF_XRESOLVE: u32 = 0x200;
/// The route has a link-layer address.
pub const RTF_LLINFO: u32 = 0x400;
/// Added by hand.
pub const RTF_STATIC: u32 = 0x800;
/// Packets are dropped without a word.
pub const RTF_BLACKHOLE: u32 = 0x1000;
/// For a protocol's own use, the second such bit.
pub const RTF_PROTO2: u32 = 0x4000;
/// For a protocol's own use, the first such bit.
pub const RTF_PROTO1: u32 = 0x8000;
/// The route of an interface's address was added; of such an address's flags, among which may also be [`RTF_CLONING`].
pub const IFA_ROUTE: u32 = 0x1;
/// mtu.
pub const RTV_MTU: u32 = 0x1;
/// hopcount.
pub const RTV_HOPCOUNT: u32 = 0x2;
/// expire.
pub const RTV_EXPIRE: u32 = 0x4;
/// recvpipe.
pub const RTV_RPIPE: u32 = 0x8;
/// sendpipe.
pub const RTV_SPIPE: u32 = 0x10;
/// ssthresh.
pub const RTV_SSTHRESH: u32 = 0x20;
/// rtt.
pub const RTV_RTT: u32 = 0x40;
/// rttvar.
pub const RTV_RTTVAR: u32 = 0x80;

/// Where the fields of an `rt_msghdr` begin, and where it ends.
pub mod at {
    /// Of the whole message, in two bytes.
    pub const LENGTH: usize = 0;
    /// In one byte.
    pub const VERSION: usize = 2;
    /// The type, in one byte.
    pub const KIND: usize = 3;
    /// In two bytes.
    pub const INDEX: usize = 4;
    /// In two bytes.
    pub const PADDING: usize = 6;
    /// This and all that follow, in four bytes.
    pub const FLAGS: usize = 8;
    /// Which addresses stand behind the header.
    pub const ADDRS: usize = 12;
    /// The writer's process.
    pub const PID: usize = 16;
    /// The writer's number.
    pub const SEQ: usize = 20;
    /// Why a write was refused.
    pub const ERRNO: usize = 24;
    /// How often the route was used.
    pub const USE: usize = 28;
    /// Which metrics are set.
    pub const INITS: usize = 32;
    /// The first of ten metrics: which of them are locked.
    pub const LOCKS: usize = 36;
    /// A metric.
    pub const MTU: usize = 40;
    /// A metric.
    pub const HOPCOUNT: usize = 44;
    /// A metric.
    pub const EXPIRE: usize = 48;
    /// A metric.
    pub const RECVPIPE: usize = 52;
    /// A metric.
    pub const SENDPIPE: usize = 56;
    /// A metric.
    pub const SSTHRESH: usize = 60;
    /// A metric.
    pub const RTT: usize = 64;
    /// A metric.
    pub const RTTVAR: usize = 68;
    /// The last metric.
    pub const PKSENT: usize = 72;
    /// Where the header ends, and the first address begins.
    pub const END: usize = 76;
}

/// Where the fields of an `ifa_msghdr` begin, which [`RTM_NEWADDR`] and [`RTM_DELADDR`] have, and where it ends. Length,
/// version and type are where the other header has them.
pub mod ifa_at {
    /// Which addresses stand behind the header, in four bytes.
    pub const ADDRS: usize = 4;
    /// [`super::IFA_ROUTE`] and [`super::RTF_CLONING`], in four bytes.
    pub const FLAGS: usize = 8;
    /// In two bytes.
    pub const INDEX: usize = 12;
    /// In two bytes.
    pub const PADDING: usize = 14;
    /// In four bytes.
    pub const METRIC: usize = 16;
    /// Where the header ends, and the first address begins.
    pub const END: usize = 20;
}

/// The family of IPv4 addresses (`struct sockaddr_in`), as <sys/socket.h> has it.
pub const AF_INET: u8 = 2;
/// The family of link-layer addresses (`struct sockaddr_dl`), as <sys/socket.h> has it.
pub const AF_LINK: u8 = 18;

/// The bytes of an IPv4 address in a message.
pub const INET_BYTES: usize = 16;
/// The most bytes of a mask as the machine makes one.
pub const MASK_BYTES: usize = 8;
/// The most bytes of a gateway that is a link-layer address, as a `sockaddr_dl`.
pub const LINK_BYTES: usize = 32;
/// The bytes of a socket's queue.
pub const QUEUE_BYTES: usize = 8192;
/// The most bytes of a message that is written.
pub const MESSAGE_BYTES: usize = 8192;
/// The most bytes that a write may offer.
pub const WRITE_BYTES: usize = 8246;
