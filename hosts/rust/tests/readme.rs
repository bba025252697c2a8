//! The lines of Rust in this crate's README, run: they stand here as they stand there.
use shofrakin::{IvectorInfo, IvectorStream, Room};
use std::path::Path;

#[rustfmt::skip]
fn lines(utterances: &[Vec<[f32; 4]>]) -> Result<(usize, Vec<f32>), Box<dyn std::error::Error>> {
    // README
    let info = IvectorInfo::open(Path::new("examples/model"))?;               // with the maker's settings beside the model; or from_bytes
    let mut stream = IvectorStream::new(&info, Room::for_utterances(&info, 500))?;
    let mut vector = vec![0.0; info.ivector_dim()];
    for utterance in utterances {
        for frame in utterance {
            stream.push_frame(frame)?;                                        // Err: a Refusal, a number and a sentence
        }
        let ready = stream.num_frames_ready();                                // those pushed, less the right context
        if ready > 0 {
            stream.get_frame(ready - 1, &mut vector)?;                        // tells how many elements are not finite, how many likelihoods NaN
        }
        stream.forget_before(ready)?;                                         // an utterance begins: what lies before it is dropped
    }
    // README
    Ok((stream.held().frames, vector))
}

#[test]
fn the_lines_are_the_readmes() {
    let (readme, here) = (include_str!("../README.md"), include_str!("readme.rs"));
    let lines = here.split("    // README\n").nth(1).unwrap();
    assert!(readme.contains(&format!("\n\n{lines}\n")), "README.md has other lines than\n{lines}");
}

#[test]
fn they_take_utterances_of_any_length() {
    std::env::set_current_dir(concat!(env!("CARGO_MANIFEST_DIR"), "/../..")).unwrap();
    let utterances = |lengths: &[usize]| lengths.iter().map(|&n| (0..n).map(|t| [7.0, (t as f32).sin(), 0.5, -0.25]).collect()).collect::<Vec<_>>();
    // no frame of the first is ready
    assert_eq!(lines(&utterances(&[1])).unwrap(), (1, vec![0.0; 3]));
    let (held, vector) = lines(&utterances(&[0, 1, 500, 500, 3, 500, 499])).unwrap();
    assert!(held <= 3 && vector.iter().any(|x| *x != 0.0), "{held} {vector:?}");
}
