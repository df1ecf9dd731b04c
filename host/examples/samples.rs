use framewitness::{Recording, Refusal};

pub fn main() -> Result<(), Box<dyn std::error::Error>> {
    let recording = Recording::open("recording.mp4")?;
    for track in recording.tracks()? {
        let summary = track.summary()?;
        println!("track {}: {}", track.number(), summary.handler);
        for sample in track.samples()? {
            // the sample's own bytes, where they lie in the file
            let media = track.media(&sample).ok_or("it lies outside the file")?;
            println!(
                "{} at {}: {} bytes",
                sample.number,
                sample.time,
                media.len()
            );
        }

        // one sample is found without the others
        let second = track.sample(2)?;
        assert_eq!((second.offset, second.size), (58, 20));
        assert_eq!(track.sample(0), Err(Refusal::NoSuchSample { number: 0 }));
    }
    Ok(())
}
