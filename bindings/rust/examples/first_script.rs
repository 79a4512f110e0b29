//! Hoiskend's first script by calls: it prints what `routesim` prints of it.
use hoiskend::{Errno, Kind, Request, Socket, World};
use std::net::Ipv4Addr;

fn print<T>(answer: Result<T, Errno>) {
    match answer {
        Ok(_) => println!("ok"),
        Err(errno) => println!("err {}", errno.number()),
    }
}

fn read_and_print(world: &mut World, socket: Socket) {
    let read = world.read(socket);
    for message in read.iter().flatten() {
        let digits: String = message.iter().map(|byte| format!("{byte:02x}")).collect();
        println!("msg {digits}");
    }
    print(read);
}

fn main() -> Result<(), Errno> {
    let mut world = World::new()?;
    print(world.attach(
        "le0",
        Kind::Broadcast,
        6,
        &[0x08, 0x00, 0x20, 0x01, 0x02, 0x03],
    ));
    let a = world.listen("a", 100, 0);
    print(a);
    let a = a?;
    print(world.add_address("le0", Ipv4Addr::new(10, 0, 0, 1), 8, true, None));
    read_and_print(&mut world, a);
    let mut question = Request::of(Ipv4Addr::new(10, 9, 9, 9), None);
    question.seq = 1;
    print(world.get_route(a, &question));
    read_and_print(&mut world, a);
    Ok(())
}
