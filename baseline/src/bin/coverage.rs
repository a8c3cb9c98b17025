//! Tells what random experiments touch: `coverage SEED COUNT`.

use baseline::generate::experiment;
use baseline::sheet::{entry, Op};
use baseline::tally::{seen, Event};
use std::collections::{BTreeMap, BTreeSet};

fn main() {
    let mut args = std::env::args().skip(1).map(|a| a.parse().expect("a number"));
    let (seed, count) = (args.next().unwrap_or(1), args.next().unwrap_or(1000));
    let mut faults = BTreeMap::new();
    for index in 0..count {
        let result = experiment(seed, index).1.play();
        count_faults(&result, &mut faults);
    }
    let seen = seen();
    print_codes(&seen);
    print_addresses(&seen);
    for (event, times) in seen.iter().filter(|(event, _)| is_rare(event)) {
        println!("{event:?}: {times}");
    }
    for (number, (calls, addresses)) in faults {
        println!("fault {number}: {calls} calls, {} addresses", addresses.len());
    }
}

type Faults = BTreeMap<u64, (u64, BTreeSet<String>)>;

fn count_faults(result: &[u8], faults: &mut Faults) {
    for line in String::from_utf8_lossy(result).lines() {
        let fields: Vec<&str> = line.split(' ').collect();
        if let ["T", _, number, _, address] = fields[..] {
            let entry = faults.entry(number.parse().unwrap_or(0)).or_default();
            entry.0 += 1;
            entry.1.insert(address.to_string());
        }
    }
}

fn is_rare(event: &Event) -> bool {
    !matches!(event, Event::Code(..) | Event::Read(_) | Event::Write(_))
}

fn print_codes(seen: &BTreeMap<Event, u64>) {
    let times = |code, taken| seen.get(&Event::Code(code, taken)).copied().unwrap_or(0);
    let mut least = (u64::MAX, 0);
    let mut missing = Vec::new();
    for code in 0..=255u8 {
        let Some(entry) = entry(code) else { continue };
        let branches = matches!(entry.op, Op::Branch(..) | Op::BranchBit(..) | Op::Dbne(_));
        let mut note = |taken: bool| {
            let n = times(code, taken);
            least = least.min((n, code));
            if n == 0 {
                missing.push(format!("{code:02X}{}", if taken { " taken" } else { "" }));
            }
        };
        note(false);
        if branches {
            note(true);
        }
    }
    println!("codes that never took effect: {missing:?}");
    println!("rarest code: {:02X}, {} times", least.1, least.0);
}

fn print_addresses(seen: &BTreeMap<Event, u64>) {
    let registers = |event: fn(u16) -> Event| -> Vec<String> {
        (0xC0..=0xFF).filter_map(|a| seen.get(&event(a)).map(|n| format!("{a:02X}:{n}"))).collect()
    };
    println!("registers read: {}", registers(Event::Read).join(" "));
    println!("registers written: {}", registers(Event::Write).join(" "));
    let ram = |event: fn(u16) -> Event| (0..0x80).filter(|&a| seen.contains_key(&event(a))).count();
    println!("RAM bytes read: {}, written: {}", ram(Event::Read), ram(Event::Write));
    let image = (0xF800..=0xFFFF).filter(|&a| seen.contains_key(&Event::Read(a))).count();
    println!("image bytes read: {image}");
}
