//! Each example by the typed calls: what they answer is its transcript.
use hoiskend::World;
use std::path::Path;
use typed::{by_line, scripts, steps_of, told};

mod typed;

fn gives_its_transcript(script: &Path) -> bool {
    let mut world = World::new().unwrap();
    steps_of(script).iter().all(|(line, answer)| {
        let text = String::from_utf8_lossy(line);
        let is_bad = answer == "bad\n";
        let got = if is_bad {
            by_line(&mut world, line)
        } else {
            told(&mut world, &text)
        };
        got == *answer && world.text() == *answer
    })
}

#[test]
fn examples_give_their_transcripts() {
    let scripts = scripts(&Path::new(env!("CARGO_MANIFEST_DIR")).join("../../examples"));
    let wrong: Vec<_> = scripts
        .iter()
        .filter(|script| !gives_its_transcript(script))
        .collect();
    assert!(wrong.is_empty(), "{wrong:?}");
}
