//! Measures tick run, leap run and the independent model on four works, on one core: `speed`.

#[cfg(bench)]
fn main() {
    speed::run();
}

#[cfg(not(bench))]
fn main() {
    eprintln!("the bench's library is not there: make it with `rt lib` in crates/capi");
}

#[cfg(bench)]
mod speed {
    use baseline::bench;
    use baseline::experiment::{Call, Experiment};
    use baseline::host::{Host, Pulse};
    use std::time::Instant;

    /// A program, what is wired to it, and how many ticks an instruction of its loop takes.
    struct Work {
        name: &'static str,
        code: Vec<u8>,
        vectors: Vec<(u16, u16)>,
        host: Host,
        ticks: u64,
        per_instruction: f64,
    }

    /// Ticks of the longest measurement.
    const TICKS: u64 = 1 << 26;

    pub fn run() {
        println!("| Work | Tick run | Leap run | Leaps to ticks | Instructions by leaps | Model | 1,000 grants to 1 |");
        println!("|---|---|---|---|---|---|---|");
        for work in works() {
            let ticks = rate(&work, work.ticks / 16, 1, |e| drop(bench::play(e)), false);
            let leaps = rate(&work, work.ticks, 1, |e| drop(bench::play(e)), true);
            let split = rate(&work, work.ticks, 1000, |e| drop(bench::play(e)), true);
            let model = rate(&work, work.ticks / 64, 1, |e| drop(e.play()), false);
            println!(
                "| {} | {:.1} | {:.1} | {:.1} | {:.1} | {:.1} | {:.3} |",
                work.name,
                ticks,
                leaps,
                leaps / ticks,
                leaps / work.per_instruction,
                model,
                leaps / split,
            );
        }
        println!("\nMillions of ticks, or of instructions, in a second; the best of five.");
    }

    /// Millions of ticks in a second, the best of five.
    fn rate(work: &Work, ticks: u64, calls: u64, play: impl Fn(&Experiment), leaps: bool) -> f64 {
        let call = Call { leaps, short_image: false, grant: ticks / calls };
        let experiment = experiment(work, vec![call; calls as usize]);
        let mut best = f64::INFINITY;
        for _ in 0..5 {
            let start = Instant::now();
            play(&experiment);
            best = best.min(start.elapsed().as_secs_f64());
        }
        ticks as f64 / best / 1e6
    }

    fn experiment(work: &Work, calls: Vec<Call>) -> Experiment {
        let mut image = [0xFF; 2048];
        image[..work.code.len()].copy_from_slice(&work.code);
        for &(at, to) in &work.vectors {
            image[at as usize - 0xF800..][..2].copy_from_slice(&to.to_le_bytes());
        }
        Experiment { image, ram: [0; 128], host: work.host.clone(), calls, pin_places: 2048, mode_places: 2048 }
    }

    fn works() -> [Work; 4] {
        let reset = (0xFFFE, 0xF800);
        [
            Work {
                name: "busy loop, both timers and the buzzer",
                // LDM TDR0,#100; LDM TM0,#0F; LDM TDR1,#77; LDM TM1,#0B; LDM BUR,#3F; loop: INC 10; LDA 10; ADC #3; STA 11; BRA loop
                code: vec![
                    0xE4, 100, 0xD1, 0xE4, 0x0F, 0xD0, 0xE4, 77, 0xD3, 0xE4, 0x0B, 0xD2, 0xE4, 0x3F, 0xDE, //
                    0x89, 0x10, 0xC5, 0x10, 0x04, 3, 0xE5, 0x11, 0x2F, 0xF6,
                ],
                vectors: vec![reset],
                host: Host::Steady(0),
                ticks: TICKS,
                per_instruction: 2.0 * (4 + 3 + 2 + 4 + 4) as f64 / 5.0,
            },
            Work {
                name: "interrupts every 64 ticks",
                // LDX #7F; TXSP; LDM TDR0,#7; LDM TM0,#0B; LDM IENH,#20; EI; loop: INC 10; BRA loop; at F840: INC 12; RETI
                code: {
                    let mut code = vec![
                        0x1E, 0x7F, 0x8E, 0xE4, 7, 0xD1, 0xE4, 0x0B, 0xD0, 0xE4, 0x20, 0xE2, 0xE0, //
                        0x89, 0x10, 0x2F, 0xFC,
                    ];
                    code.resize(0x40, 0xFF);
                    code.extend([0x89, 0x12, 0x7F]);
                    code
                },
                vectors: vec![reset, (0xFFF6, 0xF840)],
                host: Host::Steady(0),
                ticks: TICKS,
                per_instruction: 9.0,
            },
            Work {
                name: "sleeper in mode W",
                // LDM CKCTLR,#40; LDM TDR0,#FF; LDM TM0,#1B; LDM IENH,#20; loop: STOP; LDM IRQH,#0; BRA loop
                code: vec![
                    0xE4, 0x40, 0xEC, 0xE4, 0xFF, 0xD1, 0xE4, 0x1B, 0xD0, 0xE4, 0x20, 0xE2, //
                    0xEF, 0xE4, 0x00, 0xE4, 0x2F, 0xFA,
                ],
                vectors: vec![reset],
                host: Host::Steady(0),
                ticks: TICKS * 4,
                per_instruction: 524_288.0 / 3.0,
            },
            Work {
                name: "4,096 pulses and a wave of 40 ticks",
                // LDM RAIO,#FF; LDM RBIO,#1F; LDM RCIO,#03; loop: INC 10; BRA loop
                code: vec![0xE4, 0xFF, 0xC1, 0xE4, 0x1F, 0xC3, 0xE4, 0x03, 0xC5, 0x89, 0x10, 0x2F, 0xFC],
                vectors: vec![reset],
                host: {
                    let pulses = (0..4096).map(|k| Pulse { offset: 16_000 * k, length: 300 }).collect();
                    let wave = Host::wave(0x0001, 23, 17).expect("a good wave");
                    let left = Host::join(Host::Steady(0), Host::pulses(0x0400, pulses).expect("good pulses"));
                    Host::join(left, Host::join(wave, Host::wave(0, 1 << 20, 1 << 20).expect("a good wave")))
                },
                ticks: TICKS / 4,
                per_instruction: 8.0,
            },
        ]
    }
}
