use framewitness::{Recording, Verdict};

pub fn main() -> std::io::Result<()> {
    let recording = Recording::open("recording.mp4")?;
    let verdict = recording.audit();
    assert!(recording.is_unchanged()?, "it was written to meanwhile");

    println!("{verdict}"); // the whole sentence
    match verdict {
        Verdict::Clean { media, .. } => assert_eq!(media, 210),
        Verdict::Found(finding) => panic!("not clean: F{}", finding.number()),
        Verdict::Refused(refusal) => panic!("refused: {}", refusal.number()),
    }
    Ok(())
}
