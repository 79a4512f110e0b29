//! The messages of all transcripts, taken apart: what stands in words of each is what its parts say.
use hoiskend::{Address, Message};
use std::path::Path;
use std::{fs, iter};

const NAMES: [&str; 8] = [
    "DST", "GATEWAY", "NETMASK", "GENMASK", "IFP", "IFA", "AUTHOR", "BRD",
];

/// The messages of the examples' transcripts.
fn told() -> Vec<Vec<u8>> {
    let folder = Path::new(env!("CARGO_MANIFEST_DIR")).join("../../examples");
    let files = fs::read_dir(folder)
        .unwrap()
        .map(|file| file.unwrap().path());
    let transcripts = files.filter(|path| path.extension().is_some_and(|end| end == "transcript"));
    let texts: Vec<String> = transcripts
        .map(|path| fs::read_to_string(path).unwrap())
        .collect();
    let digits = texts
        .iter()
        .flat_map(|text| text.lines())
        .filter_map(|line| line.strip_prefix("msg "));
    digits.map(bytes_of).collect()
}

fn bytes_of(digits: &str) -> Vec<u8> {
    let pairs = (0..digits.len()).step_by(2).map(|at| &digits[at..at + 2]);
    pairs
        .map(|pair| u8::from_str_radix(pair, 16).unwrap())
        .collect()
}

/// The number behind a name in the text, or 0.
fn number(text: &str, name: &str, radix: u32) -> u32 {
    let words: Vec<&str> = text.split([' ', ',', '\n', '<', ':']).collect();
    let at = words.iter().position(|word| *word == name);
    at.map_or(0, |at| u32::from_str_radix(words[at + 1], radix).unwrap())
}

/// What a line of an address says, where that is none but its bytes.
fn words_of(address: Address) -> Option<String> {
    match address {
        Address::Inet(address) => Some(address.to_string()),
        Address::Mask(bits) => {
            let mask = u32::MAX.checked_shl(32 - u32::from(bits)).unwrap_or(0);
            Some(format!("{} (/{bits})", std::net::Ipv4Addr::from(mask)))
        }
        Address::Link(link) => {
            let name = std::str::from_utf8(link.name()).ok()?;
            let digits: String = link
                .address()
                .iter()
                .map(|byte| format!("{byte:02x}"))
                .collect();
            let (index, number, size) = (link.index(), link.type_number(), link.as_bytes().len());
            Some(format!(
                "link {name}:{digits} index {index} type {number} length {size}"
            ))
        }
        Address::Bytes(_) => None,
    }
}

fn holds(message: Message) -> bool {
    let text = message.to_string();
    let metrics = message.metrics().unwrap();
    let fields = [
        (message.pid(), "pid", 10),
        (message.seq(), "seq", 10),
        (message.index().map(u32::from), "index", 10),
        (message.flags(), "flags", 16),
        (message.errno(), "errno", 10),
        (message.use_count(), "use", 10),
        (message.inits(), "inits", 16),
        (message.metric(), "metric", 10),
        (Ok(metrics.locks), "locks", 16),
        (Ok(metrics.mtu), "mtu", 10),
        (Ok(metrics.hopcount), "hopcount", 10),
        (Ok(metrics.pksent), "pksent", 10),
    ];
    let shown = text
        .lines()
        .filter_map(|line| line.trim_start().split_once(' '));
    let shown: Vec<_> = shown.filter(|(name, _)| NAMES.contains(name)).collect();
    let Ok(addresses) = message.addresses() else {
        return text.starts_with("no message");
    };
    let addresses: Vec<_> = addresses.collect();
    let same = iter::zip(&addresses, &shown).all(|((bit, address), (name, words))| {
        let is_same = words.starts_with("bytes ") || words_of(*address).as_deref() == Some(words);
        NAMES[bit.trailing_zeros() as usize] == *name && is_same
    });
    let named = fields
        .into_iter()
        .all(|(got, name, radix)| got == Ok(number(&text, name, radix)));
    named && same && addresses.len() == shown.len()
}

#[test]
fn messages_are_taken_apart() {
    let told = told();
    let wrong: Vec<_> = told
        .iter()
        .map(|bytes| Message::of(bytes))
        .filter(|message| !holds(*message))
        .collect();
    assert!(told.len() > 100 && wrong.is_empty(), "{wrong:?}");
}

/// Bytes that are no message are shown as such where they are refused.
#[test]
fn what_is_no_message_is_refused() {
    for bytes in told() {
        for size in 0..bytes.len() {
            let kind = Message::of(&bytes[..size]).kind();
            assert_eq!(kind, Err(hoiskend::Fault::Length));
        }
        let mut other = bytes.clone();
        other[2] = 4;
        assert_eq!(Message::of(&other).kind(), Ok(bytes[3]));
        assert_eq!(
            Message::of(&other).addresses().err(),
            Some(hoiskend::Fault::Version)
        );
        for at in 0..bytes.len() {
            let mut other = bytes.clone();
            other[at] = 0xff;
            let message = Message::of(&other);
            assert_eq!(
                message.addresses().is_err(),
                message.to_string().starts_with("no message"),
                "{message:?}"
            );
        }
    }
}
