//! The calls of hoiskend.h, and the one place of what Rust can't check: each is made on a handle that is open once
//! `open` has answered 0 and until it is dropped, with slices that are there for as long as the call runs, and with
//! `bool`s of Rust. Of what the header has the caller owe, that leaves the C library's heap.
#![allow(unsafe_code)]

pub(crate) use crate::structs::{
    Entry, Header, Ifaddr, Interface, Request, Route, Sockaddr, Socket,
};
use std::ptr::null_mut;

/// The answer to a line that the grammar doesn't have.
pub(crate) const BAD: u32 = 256;
/// The most bytes of a message that was made for another system.
const MOST_CONVERTED: usize = 2304;
/// What there is too little room for, and what there is no memory for.
const NO_ROOM: u32 = 12;
const NO_MEMORY: u32 = 55;

#[repr(C)]
#[derive(Debug)]
struct World {
    core: *mut u8,
}

pub(crate) const FORM_INET: u8 = 1;
pub(crate) const FORM_MASK: u8 = 2;
pub(crate) const FORM_LINK: u8 = 3;

#[rustfmt::skip]
extern "C" {
    fn hk_open(world: *mut World) -> u32;
    fn hk_close(world: *mut World);
    fn hk_attach_n(
        world: *mut World, name: *const u8, name_n: usize, kind: u8, type_number: u8, link: *const u8, link_n: usize,
    ) -> u32;
    fn hk_add_address_n(
        world: *mut World, name: *const u8, name_n: usize, address: u32, prefix: u8, cloning: bool, has_far: bool,
        far: u32,
    ) -> u32;
    fn hk_remove_address_n(world: *mut World, name: *const u8, name_n: usize, address: u32) -> u32;
    fn hk_listen_n(world: *mut World, id: *const u8, id_n: usize, pid: u32, protocol: u8) -> u32;
    fn hk_shut_n(world: *mut World, id: *const u8, id_n: usize) -> u32;
    fn hk_loopback_n(world: *mut World, id: *const u8, id_n: usize, on: bool) -> u32;
    fn hk_write_n(world: *mut World, id: *const u8, id_n: usize, message: *const u8, n: usize) -> u32;
    fn hk_add_route_n(world: *mut World, id: *const u8, id_n: usize, request: *const Request) -> u32;
    fn hk_delete_route_n(world: *mut World, id: *const u8, id_n: usize, request: *const Request) -> u32;
    fn hk_change_route_n(world: *mut World, id: *const u8, id_n: usize, request: *const Request) -> u32;
    fn hk_get_route_n(world: *mut World, id: *const u8, id_n: usize, request: *const Request) -> u32;
    fn hk_lock_route_n(world: *mut World, id: *const u8, id_n: usize, request: *const Request) -> u32;
    fn hk_read_n(world: *mut World, id: *const u8, id_n: usize) -> u32;
    fn hk_lost_n(world: *mut World, id: *const u8, id_n: usize, lost: *mut u64) -> u32;
    fn hk_packet(world: *mut World, destination: u32, route: *mut Route) -> u32;
    fn hk_redirect(world: *mut World, destination: u32, gateway: u32, author: u32) -> u32;
    fn hk_losing(world: *mut World, address: u32) -> u32;
    fn hk_dump_size(world: *mut World, has_filter: bool, filter: u32, size: *mut u64) -> u32;
    fn hk_dump(world: *mut World, has_filter: bool, filter: u32, room: u32) -> u32;
    fn hk_interface_of(world: *mut World, index: u16, interface: *mut Interface) -> u32;
    fn hk_next_address(world: *mut World, index: u16, place: *mut usize, address: *mut Ifaddr) -> u32;
    fn hk_socket_at(world: *mut World, place: usize, socket: *mut Socket) -> u32;
    fn hk_route_of(world: *mut World, key: u32, rank: u8, entry: *mut Entry) -> u32;
    fn hk_line(world: *mut World, line: *const u8, n: usize) -> u32;
    fn hk_fetch(world: *mut World, out: *mut u8, n: usize) -> usize;
    fn hk_text(world: *mut World, out: *mut u8, n: usize) -> usize;
    fn hk_show(message: *const u8, message_n: usize, out: *mut u8, n: usize, size: *mut usize) -> u32;
    fn hk_message_header(message: *const u8, n: usize, header: *mut Header) -> u32;
    fn hk_message_address(message: *const u8, n: usize, bit: u32, address: *mut Sockaddr) -> u32;
    fn hk_convert(
        from: u32, to: u32, message: *const u8, message_n: usize, out: *mut u8, n: usize, size: *mut usize,
    ) -> u32;
}

/// A world of the library. It is not copied, and dropping it closes it.
#[derive(Debug)]
pub(crate) struct Handle {
    world: World,
}

// SAFETY: the library keeps nothing outside of a world, and nothing in one that belongs to a thread.
unsafe impl Send for Handle {}

// SAFETY of each call: `&mut self` is one call at a time on a world that nobody else writes; a slice is as many bytes
// as it says, behind a pointer that isn't null also where they are none, and Rust keeps what is lent for writing apart.
impl Handle {
    pub(crate) fn closed() -> Handle {
        Handle {
            world: World { core: null_mut() },
        }
    }

    pub(crate) fn open(&mut self) -> u32 {
        unsafe { hk_open(&mut self.world) }
    }

    pub(crate) fn attach(&mut self, name: &[u8], kind: u8, type_number: u8, link: &[u8]) -> u32 {
        let (at, n) = (name.as_ptr(), name.len());
        unsafe {
            hk_attach_n(
                &mut self.world,
                at,
                n,
                kind,
                type_number,
                link.as_ptr(),
                link.len(),
            )
        }
    }

    pub(crate) fn add_address(
        &mut self,
        name: &[u8],
        address: u32,
        prefix: u8,
        cloning: bool,
        far: Option<u32>,
    ) -> u32 {
        let (at, n, other) = (name.as_ptr(), name.len(), far.unwrap_or(0));
        unsafe {
            hk_add_address_n(
                &mut self.world,
                at,
                n,
                address,
                prefix,
                cloning,
                far.is_some(),
                other,
            )
        }
    }

    pub(crate) fn remove_address(&mut self, name: &[u8], address: u32) -> u32 {
        unsafe { hk_remove_address_n(&mut self.world, name.as_ptr(), name.len(), address) }
    }

    pub(crate) fn listen(&mut self, id: &[u8], pid: u32, protocol: u8) -> u32 {
        unsafe { hk_listen_n(&mut self.world, id.as_ptr(), id.len(), pid, protocol) }
    }

    pub(crate) fn shut(&mut self, id: &[u8]) -> u32 {
        unsafe { hk_shut_n(&mut self.world, id.as_ptr(), id.len()) }
    }

    pub(crate) fn loopback(&mut self, id: &[u8], on: bool) -> u32 {
        unsafe { hk_loopback_n(&mut self.world, id.as_ptr(), id.len(), on) }
    }

    pub(crate) fn write(&mut self, id: &[u8], message: &[u8]) -> u32 {
        unsafe {
            hk_write_n(
                &mut self.world,
                id.as_ptr(),
                id.len(),
                message.as_ptr(),
                message.len(),
            )
        }
    }

    pub(crate) fn add_route(&mut self, id: &[u8], request: &Request) -> u32 {
        unsafe { hk_add_route_n(&mut self.world, id.as_ptr(), id.len(), request) }
    }

    pub(crate) fn delete_route(&mut self, id: &[u8], request: &Request) -> u32 {
        unsafe { hk_delete_route_n(&mut self.world, id.as_ptr(), id.len(), request) }
    }

    pub(crate) fn change_route(&mut self, id: &[u8], request: &Request) -> u32 {
        unsafe { hk_change_route_n(&mut self.world, id.as_ptr(), id.len(), request) }
    }

    pub(crate) fn get_route(&mut self, id: &[u8], request: &Request) -> u32 {
        unsafe { hk_get_route_n(&mut self.world, id.as_ptr(), id.len(), request) }
    }

    pub(crate) fn lock_route(&mut self, id: &[u8], request: &Request) -> u32 {
        unsafe { hk_lock_route_n(&mut self.world, id.as_ptr(), id.len(), request) }
    }

    pub(crate) fn read(&mut self, id: &[u8]) -> u32 {
        unsafe { hk_read_n(&mut self.world, id.as_ptr(), id.len()) }
    }

    pub(crate) fn lost(&mut self, id: &[u8], lost: &mut u64) -> u32 {
        unsafe { hk_lost_n(&mut self.world, id.as_ptr(), id.len(), lost) }
    }

    pub(crate) fn packet(&mut self, destination: u32, route: &mut Route) -> u32 {
        unsafe { hk_packet(&mut self.world, destination, route) }
    }

    pub(crate) fn redirect(&mut self, destination: u32, gateway: u32, author: u32) -> u32 {
        unsafe { hk_redirect(&mut self.world, destination, gateway, author) }
    }

    pub(crate) fn losing(&mut self, address: u32) -> u32 {
        unsafe { hk_losing(&mut self.world, address) }
    }

    pub(crate) fn dump_size(&mut self, filter: Option<u32>, size: &mut u64) -> u32 {
        unsafe { hk_dump_size(&mut self.world, filter.is_some(), filter.unwrap_or(0), size) }
    }

    pub(crate) fn dump(&mut self, filter: Option<u32>, room: u32) -> u32 {
        unsafe { hk_dump(&mut self.world, filter.is_some(), filter.unwrap_or(0), room) }
    }

    pub(crate) fn interface_of(&mut self, index: u16, interface: &mut Interface) -> u32 {
        unsafe { hk_interface_of(&mut self.world, index, interface) }
    }

    pub(crate) fn next_address(
        &mut self,
        index: u16,
        place: &mut usize,
        address: &mut Ifaddr,
    ) -> u32 {
        unsafe { hk_next_address(&mut self.world, index, place, address) }
    }

    pub(crate) fn socket_at(&mut self, place: usize, socket: &mut Socket) -> u32 {
        unsafe { hk_socket_at(&mut self.world, place, socket) }
    }

    pub(crate) fn route_of(&mut self, key: u32, rank: u8, entry: &mut Entry) -> u32 {
        unsafe { hk_route_of(&mut self.world, key, rank, entry) }
    }

    pub(crate) fn line(&mut self, line: &[u8]) -> u32 {
        unsafe { hk_line(&mut self.world, line.as_ptr(), line.len()) }
    }

    /// The messages of the last answer.
    pub(crate) fn fetch(&mut self) -> Vec<u8> {
        self.gives(hk_fetch)
    }

    /// The text of the last answer.
    pub(crate) fn text(&mut self) -> Vec<u8> {
        self.gives(hk_text)
    }

    /// All the bytes that a call gives, which first tells how many there are.
    fn gives(
        &mut self,
        call: unsafe extern "C" fn(*mut World, *mut u8, usize) -> usize,
    ) -> Vec<u8> {
        let n = unsafe { call(&mut self.world, [0].as_mut_ptr(), 0) };
        let mut bytes = vec![0; n];
        unsafe { call(&mut self.world, bytes.as_mut_ptr(), n) };
        bytes
    }
}

impl Drop for Handle {
    fn drop(&mut self) {
        unsafe { hk_close(&mut self.world) }
    }
}

/// The text of a message. Where there is no memory, for the library or for the text, that is answered as the library
/// does.
pub(crate) fn show(message: &[u8]) -> Result<Vec<u8>, u32> {
    let (at, message_n) = (message.as_ptr(), message.len());
    let (mut text, mut size) = (Vec::new(), 0);
    loop {
        // SAFETY: as for the calls on a world, and this has none.
        let code = unsafe { hk_show(at, message_n, text.as_mut_ptr(), text.len(), &mut size) };
        match code {
            0 => return Ok(text),
            NO_ROOM => text.try_reserve_exact(size).map_err(|_| NO_MEMORY)?,
            _ => return Err(code),
        }
        text.resize(size, 0);
    }
}

/// A message of one system in the layout of another, or the code for which it has none there.
pub(crate) fn convert(from: u32, to: u32, message: &[u8]) -> Result<Vec<u8>, u32> {
    let (at, message_n) = (message.as_ptr(), message.len());
    let (mut new, mut size) = ([0; MOST_CONVERTED], 0);
    // SAFETY: as for the calls on a world, and this has none.
    let code = unsafe {
        hk_convert(
            from,
            to,
            at,
            message_n,
            new.as_mut_ptr(),
            new.len(),
            &mut size,
        )
    };
    match code {
        0 => Ok(new[..size].to_vec()),
        _ => Err(code),
    }
}

/// What is wrong with a message, by its code, and the fields of its header where its length is right.
pub(crate) fn header(message: &[u8]) -> (u32, Header) {
    let mut header = Header::default();
    // SAFETY: as for the calls on a world, and this has none.
    let code = unsafe { hk_message_header(message.as_ptr(), message.len(), &mut header) };
    (code, header)
}

/// The address of this bit in a message, or the code for which there is none.
pub(crate) fn address(message: &[u8], bit: u32) -> Result<Sockaddr, u32> {
    let mut address = Sockaddr::default();
    // SAFETY: as for the calls on a world, and this has none.
    let code = unsafe { hk_message_address(message.as_ptr(), message.len(), bit, &mut address) };
    match code {
        0 => Ok(address),
        _ => Err(code),
    }
}
