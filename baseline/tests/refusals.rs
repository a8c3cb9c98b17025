//! When the C interface refuses an experiment, and that it then writes nothing.
#![cfg(bench)]

use baseline::bench::{description, Buffers};
use baseline::experiment::{Call, Experiment};
use baseline::host::{Host, Pulse};

/// A chip of an FF image with three places in all, and one call.
fn experiment(host: Host) -> Experiment {
    let call = Call { leaps: true, short_image: false, grant: 1 };
    Experiment { image: [0xFF; 2048], ram: [0; 128], host, calls: vec![call], pin_places: 2, mode_places: 1 }
}

/// What is answered with buffers of these lengths. Any error leaves the buffers as they were.
fn answer(description: &[u8], answers: usize, fields: usize, lines: usize) -> u32 {
    let mut buffers = Buffers::new(answers, fields, lines);
    let before = buffers.clone();
    let error = buffers.play(description);
    assert!((error == 0) != (buffers == before), "answer {error}");
    error
}

fn told(host: Host) -> u32 {
    answer(&description(&experiment(host)), 1, 192, 192)
}

#[test]
fn buffers_that_are_too_small() {
    let good = description(&experiment(Host::Steady(1)));
    assert_eq!(answer(&good, 1, 192, 192), 0);
    assert_eq!(answer(&good, 0, 192, 192), 101);
    assert_eq!(answer(&good, 1, 191, 192), 101);
    assert_eq!(answer(&good, 1, 192, 191), 101);
    assert_eq!(answer(&good[1..], 0, 0, 0), 100);
}

#[test]
fn hosts_that_are_refused() {
    let pulses = |length| Host::Pulses(1, vec![Pulse { offset: 4, length: 2 }, Pulse { offset: 7, length }]);
    let wave = |low, high| Host::Wave { word: 1, low, high };
    assert_eq!(told(pulses(1)), 0);
    assert_eq!(told(pulses(0)), 13);
    assert_eq!(told(wave(1, 1 << 20)), 0);
    assert_eq!(told(wave(0, 1)), 14);
    assert_eq!(told(wave(1, (1 << 20) + 1)), 14);
    let both = Host::join(pulses(0), wave(0, 1));
    assert_eq!(told(Host::join(both, wave(1, 1))), 13);
    assert_eq!(told(Host::join(Host::join(pulses(1), wave(1, 1)), wave(1, 0))), 14);
}
