//! Worked examples.

mod bench;

use baseline::host::Pulse;
use baseline::machine::{flag, request};
use baseline::{Chip, Fault, Host, Kind, Mode, Stretch};
use bench::{image, set_word, stop_of, Bench};

#[test]
fn buzzer_chart() {
    let lines = Bench::of(&[0xE4, 0x02, 0xCB, 0xE4, 0x00, 0xDE, 0x2F, 0xFE]).lines(40);
    let expected = "P 0 16 0000 0200\n\
                    P 16 8 0200 0200\n\
                    P 24 8 0000 0200\n\
                    P 32 8 0200 0200\n\
                    M 0 40 R\n\
                    T 40 0\n";
    assert_eq!(lines, expected);
}

/// A and PSW after an operation of two ticks per cycle.
fn a_and_psw(code: &[u8], ticks: u64) -> (u8, u8) {
    let machine = Bench::of(code).go(ticks).chip.machine;
    (machine.a, machine.psw)
}

#[test]
fn sums() {
    use flag::*;
    assert_eq!(a_and_psw(&[0xC4, 0x7F, 0x04, 0x01], 8), (0x80, N | V | H));
    assert_eq!(a_and_psw(&[0xC4, 0xFF, 0x04, 0x01], 8), (0x00, H | Z | C));
    assert_eq!(a_and_psw(&[0xA0, 0xC4, 0x00, 0x24, 0x01], 12), (0xFF, N));
}

#[test]
fn compares_leave_v_and_h() {
    // 7F ADC 01 gives N V H; CMP #80 then Z C.
    let code = [0xC4, 0x7F, 0x04, 0x01, 0x44, 0x80];
    assert_eq!(a_and_psw(&code, 12), (0x80, flag::V | flag::H | flag::Z | flag::C));
}

#[test]
fn table_call_takes_its_word() {
    let mut image = image(&[0x1E, 0x7F, 0x8E, 0x4A]);
    set_word(&mut image, 0xFFD6, 0xFA12);
    let machine = Bench::new(image, Host::Steady(0)).go(9).chip.machine;
    assert_eq!((machine.pc, machine.sp), (0xFA12, 0x7D));
    assert_eq!(machine.ram[0x7E..], [0x04, 0xF8]);
}

#[test]
fn int0_goes_ahead_of_timer_0() {
    // Stack, both enabled, both requested, EI.
    let mut image = image(&[0x1E, 0x7F, 0x8E, 0xE4, 0xA0, 0xE2, 0xE4, 0xA0, 0xE4, 0xE0, 0xFF]);
    set_word(&mut image, 0xFFFA, 0xFB00);
    set_word(&mut image, 0xFFF6, 0xFC00);
    let machine = Bench::new(image, Host::Steady(0)).go(35).chip.machine;
    assert_eq!(machine.pc, 0xFB00);
    assert_eq!(machine.requests, request::T0);
    assert_eq!(machine.psw, 0);
    assert_eq!(machine.owed, 15);
    assert_eq!(machine.ram[0x7D..], [flag::I, 0x0A, 0xF8]);
}

#[test]
fn stops() {
    let pc = Some(0xF800);
    assert_eq!(stop_of(&[0x5B]), (0, 6, pc, None));
    assert_eq!(stop_of(&[0xC5, 0x90]), (0, 7, pc, Some(0x0090)));
    assert_eq!(stop_of(&[0x01, 0xC1]), (0, 8, pc, Some(0x00C1)));
    assert_eq!(stop_of(&[0xE7, 0x00, 0xF8]), (0, 9, pc, Some(0xF800)));
    assert_eq!(stop_of(&[0xE4, 0x40, 0xD2]), (0, 10, pc, Some(0x00D2)));
}

#[test]
fn more_stops() {
    // T1 is read and then not written.
    assert_eq!(stop_of(&[0x11, 0xD4]), (0, 9, Some(0xF800), Some(0x00D4)));
    // A direct address under G, after LDA #20, PUSH A, POP PSW with SP 0.
    assert_eq!(stop_of(&[0xC4, 0x20, 0x0E, 0x6D, 0xC5, 0x10]), (20, 7, Some(0xF804), Some(0x0110)));
    // The second push of a call from SP 0.
    assert_eq!(stop_of(&[0x3B, 0x00, 0xF9]), (0, 7, Some(0xF800), Some(0x00FF)));
    // JMP FFFF, where FFFF holds STY !abs.
    assert_eq!(stop_of(&[0x1B, 0xFF, 0xFF]), (6, 7, Some(0xFFFF), Some(0x0000)));
    // A pull from above RAM.
    assert_eq!(stop_of(&[0x1E, 0x7F, 0x8E, 0x6F]), (8, 7, Some(0xF803), Some(0x0080)));
}

#[test]
fn break_pushes_b_and_clears_i() {
    let mut image = image(&[0x1E, 0x7F, 0x8E, 0xE0, 0x0F]);
    set_word(&mut image, 0xFFDE, 0xF900);
    image[0x100] = 0x7F;
    let mut bench = Bench::new(image, Host::Steady(0)).go(15);
    assert_eq!((bench.chip.machine.pc, bench.chip.machine.psw), (0xF900, flag::B));
    assert_eq!(bench.chip.machine.ram[0x7D], flag::B | flag::I);
    bench = bench.go(16);
    assert_eq!(bench.chip.machine.pc, 0xF805);
    assert_eq!(bench.chip.machine.psw, flag::B | flag::I);
}

#[test]
fn refusals_in_their_order() {
    let mut bench = Bench::of(&[0x2F, 0xFE]).go(10);
    let image = bench.image;
    let short = &image[1..];
    let number = |fault: Option<Fault>| fault.map_or(0, |f| f.number());
    let before = bench.chip.clone();
    let mut call = |image: &[u8], grant, pins: &mut [_], modes: &mut [_]| {
        let (ticks, fault) = bench.chip.run(image, &bench.host, grant, pins, modes);
        assert_eq!(ticks, 0);
        number(fault)
    };
    let (mut none, mut no_modes): ([Stretch<_>; 0], [Stretch<_>; 0]) = ([], []);
    assert_eq!(call(short, 1 << 40, &mut none, &mut no_modes), 1);
    assert_eq!(call(&image, (1 << 32) + 1, &mut none, &mut no_modes), 2);
    assert_eq!(call(&image, 0, &mut none, &mut no_modes), 4);
    assert_eq!(call(&image, 0, &mut bench.pins, &mut no_modes), 5);
    let mut short_mode = bench.modes.clone();
    short_mode[0].length = 9;
    assert_eq!(call(&image, 0, &mut bench.pins, &mut short_mode), 5);
    assert_eq!(call(&image, 0, &mut bench.pins, &mut bench.modes), 0);
    assert_eq!(bench.chip, before);
}

#[test]
fn spent_chip() {
    let mut bench = Bench::of(&[0x2F, 0xFE]).go(1);
    bench.chip.tick = (1 << 48) - 1;
    bench.pins[0].length = (1 << 48) - 1;
    bench.modes[0].length = (1 << 48) - 1;
    assert_eq!(bench.run(2), (0, Some(Fault::new(Kind::ChipSpent))));
    assert_eq!(bench.run(1), (1, None));
}

#[test]
fn charts_without_places() {
    let mut bench = Bench::of(&[0xE4, 0x01, 0xC1, 0xE4, 0x01, 0xC0, 0x2F, 0xFE]);
    bench.pins.truncate(1);
    assert_eq!(bench.run(1 << 32), (10, Some(Fault::new(Kind::NoPinPlace))));
    assert_eq!(bench.run(1 << 32), (0, Some(Fault::new(Kind::NoPinPlace))));
    assert_eq!(bench.chip.machine.latch[0], 0);

    // STOP needs a mode stretch; the new pin stretch of its tick is not kept.
    let mut bench = Bench::of(&[0xEF]);
    bench.image[..4].copy_from_slice(&[0xFF, 0xFF, 0xFF, 0xEF]);
    bench.host = Host::pulses(1, vec![Pulse { offset: 12, length: 5 }]).unwrap();
    bench.modes.truncate(1);
    let pins = bench.pins.clone();
    assert_eq!(bench.run(100), (12, Some(Fault::new(Kind::NoModePlace))));
    assert_eq!(bench.pins[1..], pins[1..]);
    assert_eq!((bench.chip.pin_count, bench.pins[0].length), (1, 12));
}

#[test]
fn hosts() {
    let wave = Host::wave(0x8001, 3, 2).unwrap();
    let shown: Vec<u16> = (0..7).map(|t| wave.levels(t)).collect();
    assert_eq!(shown, [0, 0, 0, 1, 1, 0, 0]);

    let pulse = |offset, length| Pulse { offset, length };
    let list = Host::pulses(2, vec![pulse(4, 2), pulse(7, 1)]).unwrap();
    let shown: Vec<u16> = (3..10).map(|t| list.levels(t)).collect();
    assert_eq!(shown, [0, 2, 2, 0, 2, 0, 0]);
    let both = Host::join(wave, list);
    assert_eq!([both.levels(4), both.levels(5), both.levels(1 << 48)], [3, 2, 0]);

    assert_eq!(Host::pulses(1, vec![pulse(4, 2), pulse(6, 1)]), Err(Fault::pair(1)));
    assert_eq!(Host::pulses(1, vec![pulse(4, 0)]), Err(Fault::pair(0)));
    assert_eq!(Host::pulses(1, vec![pulse(u64::MAX, 2)]), Err(Fault::pair(0)));
    assert!(Host::pulses(1, vec![pulse(0, 1 << 48)]).is_ok());
    let many = |n: u64| Host::pulses(1, (0..n).map(|i| pulse(2 * i, 1)).collect());
    assert!(many(4096).is_ok());
    assert_eq!(many(4097), Err(Fault::pair(4096)));
    for (low, high) in [(0, 1), (1, 0), ((1 << 20) + 1, 1)] {
        assert_eq!(Host::wave(1, low, high), Err(Fault::new(Kind::WaveOutOfRange)));
    }
}

#[test]
fn timer_0_wakes_from_w() {
    // T0E; TDR0 0; TM0 divider 2048, counting; WAKEUP; STOP; BRA to itself.
    let code =
        [0xE4, 0x20, 0xE2, 0xE4, 0x00, 0xD1, 0xE4, 0x1B, 0xD0, 0xE4, 0x40, 0xEC, 0xEF, 0x2F, 0xFE];
    let bench = Bench::of(&code).go(3000);
    let modes: Vec<_> =
        bench.modes[..bench.chip.mode_count].iter().map(|s| (s.offset, s.sample)).collect();
    assert_eq!(modes, [(0, Mode::Running), (40, Mode::WakeTimer), (2048, Mode::Running)]);
    assert_eq!(bench.chip.machine.requests, request::T0);
    assert_eq!(bench.chip.machine.prescaler, 3000 % 2048);
    assert!(bench.chip.machine.comp);
}

#[test]
fn int0_wakes_from_s() {
    // INT0I; rising; INT0E; WAKEUP 0; STOP.
    let code = [0xE4, 0x04, 0xCB, 0xE4, 0x02, 0xE6, 0xE4, 0x80, 0xE2, 0xEF, 0x2F, 0xFE];
    let mut bench = Bench::of(&code);
    bench.host = Host::wave(0x0400, 500, 500).unwrap();
    let bench = bench.go(800);
    let modes: Vec<_> =
        bench.modes[..bench.chip.mode_count].iter().map(|s| (s.offset, s.sample)).collect();
    assert_eq!(modes, [(0, Mode::Running), (30, Mode::Stopped), (501, Mode::Running)]);
    assert_eq!(bench.chip.machine.prescaler, 30 + 800 - 501);
}

#[test]
fn watchdog_resets() {
    // WDTR 1; WDTON with BTS 0; INC 10; BRA to itself.
    let code = [0xE4, 0x81, 0xED, 0xE4, 0x10, 0xEC, 0x89, 0x10, 0x2F, 0xFE];
    // The first pulse is that of prescaler 16, and 512 pulses reset.
    let bench = Bench::of(&code).go(4103);
    assert_eq!((bench.chip.machine.pc, bench.chip.machine.prescaler), (0xF808, 7));
    let bench = bench.go(1);
    assert_eq!((bench.chip.machine.pc, bench.chip.machine.prescaler), (0xF800, 0));
    assert_eq!((bench.chip.machine.wdtr, bench.chip.machine.ckctlr), (0x7F, 0x17));
    assert_eq!(bench.chip.machine.ram[0x10], 1);
    assert_eq!(bench.go(100).chip.machine.ram[0x10], 2);
}

#[test]
fn a_low_limit_is_met_after_ff() {
    // TM1 divider 1; six NOPs; TDR1 2.
    let code = [0xE4, 0x03, 0xD2, 0xFF, 0xFF, 0xFF, 0xFF, 0xFF, 0xFF, 0xE4, 0x02, 0xD3, 0x2F, 0xFE];
    let bench = Bench::of(&code).go(256 + 2);
    assert_eq!(bench.chip.machine.timer[1].count, 2);
    assert_eq!(bench.chip.machine.requests, 0);
    let bench = bench.go(1);
    assert_eq!(bench.chip.machine.timer[1].count, 0);
    assert_eq!(bench.chip.machine.requests, request::T1);
}

#[test]
fn power_on_record() {
    let record = Chip::new().record();
    assert_eq!(record.len(), 169);
    let mut expected = vec![0; 169];
    expected[4] = 0xFFFF;
    for (place, value) in
        [(144, 0xFF), (147, 0xFF), (150, 0xFF), (153, 0x17), (155, 0x7F), (162, 0x04), (163, 82)]
    {
        expected[place] = value;
    }
    assert_eq!(record, expected);
}

#[test]
fn refused_power_on_keeps_the_chip() {
    let mut bench = Bench::of(&[0x2F, 0xFE]).go(7);
    let before = bench.chip.clone();
    assert_eq!(bench.chip.power_on(&[0; 2047], [0; 128]), Err(Fault::new(Kind::ImageSize)));
    assert_eq!(bench.chip, before);
}
