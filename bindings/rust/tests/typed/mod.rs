//! The lines of a script by the typed calls of their commands, and the examples with what they are answered.
use hoiskend::{Errno, Gateway, Kind, LineError, Messages, Socket, World};
use std::fs;
use std::net::Ipv4Addr;
use std::path::{Path, PathBuf};

mod route_words;

/// A comment of more bytes is a line that the grammar doesn't have.
const MOST_LINE: usize = 16_500;

fn bytes_of(digits: &str) -> Vec<u8> {
    let digits = digits.trim_start_matches('-');
    let pairs = (0..digits.len()).step_by(2).map(|at| &digits[at..at + 2]);
    pairs
        .map(|pair| u8::from_str_radix(pair, 16).unwrap())
        .collect()
}

fn digits_of(bytes: &[u8]) -> String {
    bytes.iter().map(|byte| format!("{byte:02x}")).collect()
}

fn number(word: &str) -> u32 {
    word.parse().unwrap()
}

fn inet(word: &str) -> Ipv4Addr {
    word.parse().unwrap()
}

fn socket(id: &str) -> Socket {
    Socket::of(id).unwrap()
}

fn kind(word: &str) -> Kind {
    match word {
        "broadcast" => Kind::Broadcast,
        "loopback" => Kind::Loopback,
        _ => Kind::PointToPoint,
    }
}

pub fn done<T>(answer: Result<T, Errno>) -> String {
    match answer {
        Ok(_) => "ok\n".into(),
        Err(errno) => format!("err {}\n", errno.number()),
    }
}

fn sized(answer: Result<u64, Errno>) -> String {
    answer.map_or_else(
        |errno| done::<()>(Err(errno)),
        |size| format!("size {size}\n"),
    )
}

fn shown(messages: &Messages) -> String {
    messages
        .iter()
        .map(|message| format!("msg {}\n", digits_of(&message)))
        .collect()
}

fn packet(world: &mut World, address: &str) -> String {
    let route = match world.packet(inet(address)) {
        Ok(route) => route,
        Err(errno) => return done::<()>(Err(errno)),
    };
    let fate = if route.drops { "drop" } else { "via" };
    let rank = route.prefix.map_or("-".into(), |prefix| prefix.to_string());
    let gateway = match route.gateway {
        Gateway::Inet(address) => address.to_string(),
        Gateway::Link(link) => format!("link:{}", digits_of(link.as_bytes())),
    };
    let (key, index, flags) = (route.key, route.index, route.flags);
    format!("{fate} {key} {rank} {gateway} {index} {flags:08x}\n")
}

fn dump(world: &mut World, flags: Option<&str>, room: &str) -> String {
    let filter = flags.map(|flags| u32::from_str_radix(flags, 16).unwrap());
    if room == "ask" {
        return sized(world.dump_size(filter));
    }
    match world.dump(filter, number(room)) {
        Ok(dump) if dump.is_whole => shown(&dump.messages) + "ok\n",
        Ok(dump) => shown(&dump.messages) + &done::<()>(Err(Errno::ENOMEM)),
        Err(errno) => done::<()>(Err(errno)),
    }
}

fn read(world: &mut World, id: &str) -> String {
    let read = world.read(socket(id));
    read.as_ref().map_or(String::new(), shown) + &done(read)
}

/// A call that is ready to be made.
pub type Call = Box<dyn Fn(&mut World) -> Result<(), Errno>>;

/// The typed call of a line, which takes no memory beside what the library takes, where what it answers is done or refused.
pub fn call_of(line: &str) -> Option<Call> {
    let words: Vec<&str> = line.split(' ').collect();
    Some(match words[..] {
        ["if", name, form, number, link] => attach(name, kind(form), number, bytes_of(link)),
        ["addr", name, place, ref others @ ..] => add_address(name, place, others),
        ["unaddr", name, address] => remove_address(name, inet(address)),
        ["open", id, pid, family] => listen(socket(id), number(pid), family.parse().unwrap_or(0)),
        ["close", id] => with(socket(id), |world, id| world.shut(*id)),
        ["loopback", id, on] => with((socket(id), on == "on"), |world, (id, on)| {
            world.set_loopback(*id, *on)
        }),
        ["write", id, digits] => with((socket(id), bytes_of(digits)), |world, (id, message)| {
            world.write(*id, message)
        }),
        ["packet", address] => with(inet(address), |world, to| world.packet(*to).map(drop)),
        ["losing", address] => with(inet(address), |world, address| world.losing(*address)),
        ["redirect", to, by, author] => {
            with([to, by, author].map(inet), |world, [to, by, author]| {
                world.redirect(*to, *by, *author)
            })
        }
        ["route", id, seq, verb, to, ref options @ ..] => ask(id, verb, (seq, to, options))?,
        _ => return None,
    })
}

/// A call with what it is given.
fn with<T: 'static>(given: T, call: fn(&mut World, &T) -> Result<(), Errno>) -> Call {
    Box::new(move |world| call(world, &given))
}

fn attach(name: &str, kind: Kind, number: &str, link: Vec<u8>) -> Call {
    let given = (name.to_owned(), kind, number.parse().unwrap(), link);
    with(given, |world, (name, kind, number, link)| {
        world.attach(name, *kind, *number, link)
    })
}

fn add_address(name: &str, place: &str, others: &[&str]) -> Call {
    let (address, prefix) = place.split_once('/').unwrap();
    let (address, prefix) = (inet(address), prefix.parse().unwrap());
    let far = (others.first() == Some(&"to")).then(|| inet(others[1]));
    let given = (
        name.to_owned(),
        address,
        prefix,
        others.last() == Some(&"cloning"),
        far,
    );
    with(given, |world, (name, address, prefix, cloning, far)| {
        world.add_address(name, *address, *prefix, *cloning, *far)
    })
}

fn remove_address(name: &str, address: Ipv4Addr) -> Call {
    with((name.to_owned(), address), |world, (name, address)| {
        world.remove_address(name, *address)
    })
}

fn listen(id: Socket, pid: u32, family: u8) -> Call {
    with((id, pid, family), |world, (id, pid, family)| {
        world.listen(id.id(), *pid, *family).map(drop)
    })
}

/// The call of a `route` line, where the grammar has it and a request says it.
fn ask(id: &str, verb: &str, (seq, to, options): (&str, &str, &[&str])) -> Option<Call> {
    let given = (
        route_words::socket(id)?,
        route_words::asking(verb)?,
        route_words::request(seq, to, options)?,
    );
    Some(with(given, |world, (id, call, request)| {
        call(world, *id, request)
    }))
}

/// What a line of the grammar is answered by the typed call of its command. A `route` line with `ifp`
/// or `ifa` has none, and neither has one that the grammar refuses; these go by `by_line`.
pub fn told(world: &mut World, line: &str) -> String {
    let words: Vec<&str> = line.split(' ').collect();
    match words[..] {
        ["read", id] => read(world, id),
        ["lost", id] => sized(world.lost(socket(id))),
        ["packet", address] => packet(world, address),
        ["dump", room] => dump(world, None, room),
        ["flags", flags, room] => dump(world, Some(flags), room),
        _ => match call_of(line) {
            Some(call) => done(call(world)),
            None => by_line(world, line.as_bytes()),
        },
    }
}

pub fn by_line(world: &mut World, line: &[u8]) -> String {
    match world.line(line) {
        Ok(()) => done(Ok(())),
        Err(LineError::Refused(errno)) => done::<()>(Err(errno)),
        Err(LineError::Bad) => "bad\n".into(),
    }
}

/// The transcript by the answers to its lines.
fn answers(transcript: &str) -> Vec<String> {
    let (mut cut, mut begun) = (Vec::new(), String::new());
    for line in transcript.split_inclusive('\n') {
        begun += line;
        if !line.starts_with("msg ") {
            cut.push(std::mem::take(&mut begun));
        }
    }
    cut
}

fn is_answered(line: &&[u8]) -> bool {
    !line.is_empty() && !(line.starts_with(b"#") && line.len() <= MOST_LINE)
}

/// The answered lines of a script, with what is answered to each.
pub fn steps_of(script: &Path) -> Vec<(Vec<u8>, String)> {
    let (text, transcript) = (
        fs::read(script).unwrap(),
        script.with_extension("transcript"),
    );
    let answers = answers(&fs::read_to_string(transcript).unwrap());
    let lines: Vec<&[u8]> = text
        .split(|byte| *byte == b'\n')
        .filter(is_answered)
        .collect();
    assert_eq!(lines.len(), answers.len());
    lines.into_iter().map(<[u8]>::to_vec).zip(answers).collect()
}

/// The examples' scripts.
pub fn scripts(folder: &Path) -> Vec<PathBuf> {
    let files = fs::read_dir(folder)
        .unwrap()
        .map(|file| file.unwrap().path());
    let scripts: Vec<_> = files
        .filter(|path| path.extension().is_some_and(|end| end == "routes"))
        .collect();
    assert!(scripts.len() > 50);
    scripts
}
