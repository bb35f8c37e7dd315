//! The node or adjacency identifier of a segment.

use core::net::{Ipv4Addr, Ipv6Addr};

/// NT 2, 4 and 6 are both forms'; 1, 3 and 5 are MPLS's alone, and refused with 8 in an SRv6 route.
#[derive(Clone, Copy, Debug, PartialEq, Eq, Hash)]
pub enum Nai {
    /// NT 1.
    Node4(Ipv4Addr),
    /// NT 2.
    Node(Ipv6Addr),
    /// NT 3.
    Adjacency4 { local: Ipv4Addr, remote: Ipv4Addr },
    /// NT 4.
    Adjacency { local: Ipv6Addr, remote: Ipv6Addr },
    /// NT 5: each end is a node and an interface.
    Unnumbered { local: Ipv4Addr, local_interface: u32, remote: Ipv4Addr, remote_interface: u32 },
    /// NT 6: each end is an address and an interface.
    LinkLocal { local: Ipv6Addr, local_interface: u32, remote: Ipv6Addr, remote_interface: u32 },
}

impl Nai {
    pub fn nt(&self) -> u8 {
        match self {
            Nai::Node4(_) => 1,
            Nai::Node(_) => 2,
            Nai::Adjacency4 { .. } => 3,
            Nai::Adjacency { .. } => 4,
            Nai::Unnumbered { .. } => 5,
            Nai::LinkLocal { .. } => 6,
        }
    }

    /// The octets that an NAI of this NT has, 0 where there is none.
    pub(crate) fn size(nt: u8) -> usize {
        match nt {
            1 => 4,
            2 => 16,
            3 => 8,
            4 => 32,
            5 => 16,
            6 => 40,
            _ => 0,
        }
    }

    /// As it stands in a segment; octets behind a shorter one are 0.
    pub(crate) fn octets(&self) -> [u8; 40] {
        let mut octets = [0; 40];
        let mut put = |at: usize, part: &[u8]| octets[at..at + part.len()].copy_from_slice(part);
        match self {
            Nai::Node4(node) => put(0, &node.octets()),
            Nai::Node(node) => put(0, &node.octets()),
            Nai::Adjacency4 { local, remote } => {
                put(0, &local.octets());
                put(4, &remote.octets());
            }
            Nai::Adjacency { local, remote } => {
                put(0, &local.octets());
                put(16, &remote.octets());
            }
            Nai::Unnumbered { local, local_interface, remote, remote_interface } => {
                put(0, &local.octets());
                put(4, &local_interface.to_be_bytes());
                put(8, &remote.octets());
                put(12, &remote_interface.to_be_bytes());
            }
            Nai::LinkLocal { local, local_interface, remote, remote_interface } => {
                put(0, &local.octets());
                put(16, &local_interface.to_be_bytes());
                put(20, &remote.octets());
                put(36, &remote_interface.to_be_bytes());
            }
        }
        octets
    }

    pub(crate) fn of(nt: u8, octets: &[u8; 40]) -> Option<Nai> {
        let address = |at: usize| Ipv6Addr::from(core::array::from_fn::<u8, 16, _>(|i| octets[at + i]));
        let four = |at: usize| core::array::from_fn::<u8, 4, _>(|i| octets[at + i]);
        let node = |at: usize| Ipv4Addr::from(four(at));
        let interface = |at: usize| u32::from_be_bytes(four(at));
        match nt {
            1 => Some(Nai::Node4(node(0))),
            2 => Some(Nai::Node(address(0))),
            3 => Some(Nai::Adjacency4 { local: node(0), remote: node(4) }),
            4 => Some(Nai::Adjacency { local: address(0), remote: address(16) }),
            5 => Some(Nai::Unnumbered { local: node(0), local_interface: interface(4), remote: node(8), remote_interface: interface(12) }),
            6 => Some(Nai::LinkLocal { local: address(0), local_interface: interface(16), remote: address(20), remote_interface: interface(36) }),
            _ => None,
        }
    }
}
