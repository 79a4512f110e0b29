//! What is asked of a route.
use crate::net_route::{AF_INET, AF_LINK};
use crate::sys;
use crate::Gateway;
use std::net::Ipv4Addr;

/// The bits of no mask.
const NO_MASK: u8 = 33;

/// What is asked of a route: what [`Request::of`] leaves out is named where its field is set.
#[derive(Clone, Copy, Debug, PartialEq, Eq)]
pub struct Request {
    /// Its key.
    pub destination: Ipv4Addr,
    /// The bits of its mask, or `None` for a host's route.
    pub prefix: Option<u8>,
    /// Its gateway.
    pub gateway: Option<Gateway>,
    /// The bits of the mask of its clones.
    pub genmask: Option<u8>,
    /// `RTF_..` of [`crate::net_route`].
    pub flags: u32,
    /// The number by which the writer knows the reply.
    pub seq: u32,
    /// The bits of the metrics that the request names, `RTV_..`, beside those that are set. One that is
    /// named alone is 0.
    pub inits: u32,
    /// The bits of the metrics that are locked, `RTV_..`.
    pub locks: u32,
    /// Metrics, each where it is set.
    pub metrics: SetMetrics,
}

/// The metrics of a request, each where it is set.
#[derive(Clone, Copy, Debug, Default, PartialEq, Eq)]
pub struct SetMetrics {
    /// The most bytes of a packet.
    pub mtu: Option<u32>,
    /// The most hops that are expected.
    pub hopcount: Option<u32>,
    /// When the route ends.
    pub expire: Option<u32>,
    /// The inbound product of delay and bandwidth.
    pub recvpipe: Option<u32>,
    /// The outbound product of delay and bandwidth.
    pub sendpipe: Option<u32>,
    /// The outbound gateway's limit of buffers.
    pub ssthresh: Option<u32>,
    /// The round-trip time that is expected.
    pub rtt: Option<u32>,
    /// Its variance.
    pub rttvar: Option<u32>,
}

impl SetMetrics {
    /// In the order of their bits, `RTV_..`.
    fn in_order(&self) -> [Option<u32>; 8] {
        [
            self.mtu,
            self.hopcount,
            self.expire,
            self.recvpipe,
            self.sendpipe,
            self.ssthresh,
            self.rtt,
            self.rttvar,
        ]
    }

    fn bits(&self) -> u32 {
        let set = self.in_order();
        (0..8)
            .filter(|bit| set[*bit].is_some())
            .map(|bit| 1 << bit)
            .sum()
    }
}

impl Request {
    /// A request about a destination and the bits of its mask, which says nothing else.
    pub fn of(destination: Ipv4Addr, prefix: Option<u8>) -> Request {
        Request {
            destination,
            prefix,
            gateway: None,
            genmask: None,
            flags: 0,
            seq: 0,
            inits: 0,
            locks: 0,
            metrics: SetMetrics::default(),
        }
    }

    /// As the library reads it.
    pub(crate) fn told(&self) -> sys::Request {
        let [mtu, hopcount, expire, recvpipe, sendpipe, ssthresh, rtt, rttvar] =
            self.metrics.in_order().map(|metric| metric.unwrap_or(0));
        let mut told = sys::Request {
            destination: self.destination.into(),
            flags: self.flags,
            seq: self.seq,
            inits: self.inits | self.metrics.bits(),
            locks: self.locks,
            mtu,
            hopcount,
            expire,
            recvpipe,
            sendpipe,
            ssthresh,
            rtt,
            rttvar,
            prefix: self.prefix.unwrap_or(NO_MASK),
            genmask: self.genmask.unwrap_or(NO_MASK),
            ..sys::Request::default()
        };
        match self.gateway {
            None => {}
            Some(Gateway::Inet(address)) => {
                told.family = AF_INET;
                told.gateway = address.into();
            }
            Some(Gateway::Link(address)) => {
                let bytes = address.as_bytes();
                told.family = AF_LINK;
                told.link_n = bytes.len() as u8;
                told.link[..bytes.len()].copy_from_slice(bytes);
            }
        }
        told
    }
}
