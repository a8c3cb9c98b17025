//! What holds of every experiment, tried on random ones.

mod bench;

use baseline::experiment::{Call, Error, Experiment};
use baseline::generate::experiment;
use baseline::sheet::entry;
use baseline::{play, Fault, Host, Kind};

fn some() -> impl Iterator<Item = Experiment> {
    (0..200).map(|index| experiment(7, index).1)
}

fn lines(result: &[u8]) -> Vec<String> {
    String::from_utf8(result.to_vec()).unwrap().lines().map(str::to_string).collect()
}

#[test]
fn descriptions_come_back() {
    for experiment in some() {
        assert_eq!(Experiment::parse(&experiment.describe()), Ok(experiment));
    }
}

#[test]
fn experiments_repeat() {
    assert_eq!(experiment(3, 5), experiment(3, 5));
    let description = experiment(3, 6).1.describe();
    assert_eq!(play(&description), play(&description));
}

/// P, M and R lines, and the total, do not depend on how a grant is split.
#[test]
fn splitting_makes_no_difference() {
    let total = |lines: &[String]| -> u64 {
        let ticks = |line: &String| line.split(' ').nth(1).unwrap().parse::<u64>().unwrap();
        lines.iter().filter(|l| l.starts_with('T')).map(ticks).sum()
    };
    let rest = |lines: &[String]| -> Vec<String> {
        lines.iter().filter(|l| !l.starts_with('T')).cloned().collect()
    };
    for experiment in some() {
        let split = lines(&experiment.play());
        let grant = total(&split);
        let call = Call { leaps: false, short_image: false, grant };
        let whole = lines(&Experiment { calls: vec![call], ..experiment }.play());
        assert_eq!(total(&whole), grant);
        assert_eq!(rest(&whole), rest(&split));
    }
}

#[test]
fn charts_lie_end_to_end() {
    for experiment in some() {
        let lines = lines(&experiment.play());
        for letter in ["P", "M"] {
            let mut end = 0;
            let mut last = String::new();
            for line in lines.iter().filter(|l| l.starts_with(letter)) {
                let fields: Vec<&str> = line.splitn(4, ' ').collect();
                assert_eq!(fields[1].parse::<u64>().unwrap(), end);
                end += fields[2].parse::<u64>().unwrap();
                assert_ne!(fields[3], last);
                last = fields[3].to_string();
            }
            let record: Vec<&str> = lines.last().unwrap().split(' ').collect();
            assert_eq!(record[record.len() - 3], end.to_string());
        }
    }
}

#[test]
fn records_keep_their_bounds() {
    for experiment in some() {
        let lines = lines(&experiment.play());
        let record: Vec<u64> =
            lines.last().unwrap().split(' ').skip(1).map(|n| n.parse().unwrap()).collect();
        assert_eq!(record.len(), 169);
        assert!(record[151] < 64, "buzzer's count");
        assert!(record[164] <= 16, "owed ticks");
        assert!(record[165] < 2048, "prescaler");
        assert_eq!(record[166] > 0, record[167] > 0);
        assert_eq!(record[166] > 0, record[168] > 0);
    }
}

#[test]
fn sheet_has_214_codes() {
    assert_eq!((0..=255).filter(|&code| entry(code).is_some()).count(), 214);
    let of = |code| entry(code).map(|e| (e.operands, e.cycles));
    assert_eq!(of(0xE4), Some((2, 5)));
    assert_eq!(of(0xE5), Some((1, 4)));
    assert_eq!(of(0xD7), Some((1, 6)));
    assert_eq!(of(0xF7), Some((1, 7)));
    assert_eq!(of(0x03), Some((2, 5)));
    assert_eq!(of(0x40), None);
    assert_eq!(of(0xC0), None);
}

#[test]
fn bad_descriptions() {
    let good = Experiment {
        image: bench::image(&[]),
        ram: [0; 128],
        host: Host::Steady(0),
        calls: vec![Call { leaps: true, short_image: false, grant: 5 }],
        pin_places: 1,
        mode_places: 1,
    }
    .describe();
    let host = 2048 + 128;
    let changed = |at: usize, bytes: &[u8]| {
        let mut bad = good.clone();
        bad.splice(at..at + bytes.len(), bytes.iter().copied());
        play(&bad)
    };
    let with_host = |bytes: &[u8]| {
        let mut bad = good.clone();
        bad.splice(host..host + 3, bytes.iter().copied());
        play(&bad)
    };
    assert!(play(&good).is_ok());
    for length in 0..good.len() {
        assert_eq!(play(&good[..length]), Err(Error::Truncated));
    }
    assert_eq!(play(&[&good[..], &[0]].concat()), Err(Error::Trailing));
    assert_eq!(changed(host, &[4]), Err(Error::UnknownHost(4)));
    assert_eq!(changed(host + 3, &[0xFF; 8]), Err(Error::TooManyCalls));
    assert_eq!(changed(host + 11, &[2]), Err(Error::UnknownCall(2)));
    assert_eq!(changed(host + 12, &[2]), Err(Error::BadFlag(2)));
    assert_eq!(changed(host + 21, &[0xFF; 4]), Err(Error::TooManyPlaces));
    assert_eq!(with_host(&[3, 3, 3, 3]), Err(Error::TooDeep));
    let no_wave = [&[2, 1, 0][..], &[0; 16]].concat();
    assert_eq!(with_host(&no_wave), Err(Error::BadHost(Fault::new(Kind::WaveOutOfRange))));
    let no_pulse = [&[1, 1, 0, 1, 0, 0, 0, 0, 0, 0, 0][..], &[0; 16]].concat();
    assert_eq!(with_host(&no_pulse), Err(Error::BadHost(Fault::pair(0))));
    let many = [1, 1, 0, 1, 16, 0, 0, 0, 0, 0, 0];
    assert_eq!(with_host(&many), Err(Error::BadHost(Fault::pair(4096))));
}
