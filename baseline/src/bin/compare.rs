//! Plays random experiments on the model and on the proved bench, and compares every byte of their results.
//!
//! `compare SEED COUNT` stops at the first difference, makes the experiment smaller while the difference stays, and keeps
//! it in `failing.experiment`.

#[cfg(bench)]
fn main() -> std::process::ExitCode {
    compare::run()
}

#[cfg(not(bench))]
fn main() -> std::process::ExitCode {
    eprintln!("the bench's library is not there: make it with `rt lib` in crates/capi");
    std::process::ExitCode::FAILURE
}

#[cfg(bench)]
mod compare {
    use baseline::bench;
    use baseline::experiment::Experiment;
    use baseline::generate::experiment;
    use std::process::ExitCode;

    pub fn run() -> ExitCode {
        let mut args = std::env::args().skip(1).map(|a| a.parse().expect("a number"));
        let (seed, count) = (args.next().unwrap_or(1), args.next().unwrap_or(1000));
        let (mut ticks, mut stops) = (0, 0);
        for index in 0..count {
            let (kind, random) = experiment(seed, index);
            let fitted = bench::fitted(&random);
            let expected = fitted.play();
            if bench::play(&fitted) != expected {
                println!("experiment {index} of seed {seed} ({kind:?}) differs");
                report(&smaller(fitted));
                return ExitCode::FAILURE;
            }
            let (t, s) = tally(&expected);
            ticks += t;
            stops += s;
            if (index + 1) % (count / 10).max(1) == 0 {
                println!("{} of {count} runs alike: {ticks} ticks, {stops} stops and refusals", index + 1);
            }
        }
        ExitCode::SUCCESS
    }

    fn differs(experiment: &Experiment) -> bool {
        bench::play(experiment) != experiment.play()
    }

    /// Leaves out calls and halves grants while the difference stays.
    fn smaller(mut failing: Experiment) -> Experiment {
        loop {
            let n = failing.calls.len();
            let shorter = (0..n).map(|i| without(&failing, i));
            let halved = (0..n).flat_map(|i| [halved(&failing, i), lowered(&failing, i)]);
            match shorter.chain(halved).find(|e| *e != failing && differs(e)) {
                Some(next) => failing = next,
                None => return failing,
            }
        }
    }

    fn without(experiment: &Experiment, i: usize) -> Experiment {
        let mut next = experiment.clone();
        next.calls.remove(i);
        next
    }

    fn halved(experiment: &Experiment, i: usize) -> Experiment {
        let mut next = experiment.clone();
        next.calls[i].grant /= 2;
        next
    }

    fn lowered(experiment: &Experiment, i: usize) -> Experiment {
        let mut next = experiment.clone();
        next.calls[i].grant = next.calls[i].grant.saturating_sub(1);
        next
    }

    /// Prints the lines that differ, and keeps the experiment.
    fn report(failing: &Experiment) {
        let text = |bytes| String::from_utf8_lossy(bytes).into_owned();
        let (model, bench) = (text(&failing.play()), text(&bench::play(failing)));
        println!("calls: {:?}", failing.calls);
        println!("host: {:?}", failing.host);
        for (a, b) in model.lines().zip(bench.lines()).filter(|(a, b)| a != b) {
            println!("model: {a}\nbench: {b}");
        }
        println!("lines: {} and {}", model.lines().count(), bench.lines().count());
        if std::fs::write("failing.experiment", failing.describe()).is_ok() {
            println!("kept in failing.experiment");
        }
    }

    /// Ticks, and how many calls stopped or were refused.
    fn tally(result: &[u8]) -> (u64, u64) {
        let text = String::from_utf8_lossy(result);
        let calls = text.lines().filter(|l| l.starts_with('T'));
        let fields = calls.map(|l| l.split(' ').collect::<Vec<_>>());
        fields.fold((0, 0), |(ticks, stops), f| {
            (ticks + f[1].parse().unwrap_or(0), stops + (f[2] != "0") as u64)
        })
    }
}
