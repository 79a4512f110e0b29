//! Each example by the typed calls, with each allocation of each call refused in turn: a call that is refused so has changed
//! nothing, and made again it answers as it would have. It is linked with heap.c, given the folder of the examples, and prints
//! how many allocations were refused.
use hoiskend::{Errno, World};
use std::ffi::c_ulong;
use std::path::Path;
use typed::{by_line, call_of, scripts, steps_of, told, Call};

#[path = "../bindings/rust/tests/typed/mod.rs"]
mod typed;

extern "C" {
    /// The allocation that is refused, counted from the next one; 0 once it was.
    static mut heap_refuse_at: c_ulong;
}

/// What a call answers with this allocation refused, and whether it got as far.
fn refusing(allocation: c_ulong, world: &mut World, call: &Call) -> (Result<(), Errno>, bool) {
    unsafe { heap_refuse_at = allocation };
    let answer = call(world);
    let left = unsafe { heap_refuse_at };
    unsafe { heap_refuse_at = 0 };
    (answer, left == 0)
}

/// What a call answers once none of its allocations is refused, or it is done without; and how many were refused.
fn insisting(world: &mut World, call: &Call) -> (Result<(), Errno>, c_ulong) {
    for allocation in 1.. {
        let (answer, is_refused) = refusing(allocation, world, call);
        if !is_refused || answer != Err(Errno::ENOBUFS) {
            return (answer, allocation - 1);
        }
    }
    unreachable!("a call takes so much memory")
}

fn refused_in(script: &Path) -> c_ulong {
    let (mut world, mut refused) = (World::new().unwrap(), 0);
    for (line, answer) in steps_of(script) {
        let text = String::from_utf8_lossy(&line);
        if answer == "bad\n" {
            by_line(&mut world, &line);
        } else if let Some(call) = call_of(&text) {
            let (got, times) = insisting(&mut world, &call);
            refused += times;
            assert_eq!(
                got.is_err(),
                answer.starts_with("err "),
                "{script:?}: {text}"
            );
        } else {
            told(&mut world, &text);
        }
        assert_eq!(world.text(), answer, "{script:?}: {text}");
    }
    refused
}

fn main() {
    let folder = std::env::args_os().nth(1).unwrap();
    let refused: c_ulong = scripts(Path::new(&folder))
        .iter()
        .map(|script| refused_in(script))
        .sum();
    println!("{refused}");
}
