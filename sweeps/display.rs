//! Displays a message with each allocation refused in turn, those of the library and those of the package: that is an
//! error, without a panic and with nothing written. It is linked with heap.c, and prints how many were refused.
use hoiskend::{Errno, Message};
use std::ffi::c_ulong;
use std::fmt::{self, Write};

extern "C" {
    /// The allocation that is refused, counted from the next one; 0 once it was.
    static mut heap_refuse_at: c_ulong;
}

/// What is written, without memory.
struct Room {
    bytes: [u8; 512],
    n: usize,
}

impl Write for Room {
    fn write_str(&mut self, text: &str) -> fmt::Result {
        let room = self
            .bytes
            .get_mut(self.n..self.n + text.len())
            .ok_or(fmt::Error)?;
        room.copy_from_slice(text.as_bytes());
        self.n += text.len();
        Ok(())
    }
}

/// What a call gives with this allocation refused, and whether it got as far.
fn refusing<T>(allocation: c_ulong, call: impl FnOnce() -> T) -> (T, bool) {
    unsafe { heap_refuse_at = allocation };
    let given = call();
    let left = unsafe { heap_refuse_at };
    unsafe { heap_refuse_at = 0 };
    (given, left == 0)
}

fn main() {
    let message = Message::of(&[0, 4, 3, 12]);
    for allocation in 1.. {
        let mut room = Room {
            bytes: [0; 512],
            n: 0,
        };
        let (answer, is_refused) = refusing(allocation, || write!(room, "{message}"));
        let (text, _) = refusing(allocation, || message.text());
        if !is_refused {
            let whole = "no message: 0004030c\n the length is wrong\n";
            assert_eq!((answer, &room.bytes[..room.n]), (Ok(()), whole.as_bytes()));
            assert_eq!(text.as_deref(), Ok(whole));
            println!("{}", allocation - 1);
            return;
        }
        assert_eq!((answer, room.n), (Err(fmt::Error), 0));
        assert_eq!(text, Err(Errno::ENOBUFS));
    }
}
