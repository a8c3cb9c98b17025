//! The third step of a tick: counters, edges and the watchdog's reset.

use crate::chart::Mode;
use crate::machine::{ckctlr, pin, rbfunc, request, Machine};
use crate::tally::{hit, Event};

/// Dividers of T0CK 0 to 6.
const T0_DIVIDERS: [u16; 7] = [2, 4, 8, 32, 128, 512, 2048];
/// Dividers of T1CK 0 to 2.
const T1_DIVIDERS: [u16; 3] = [1, 2, 8];
/// T0CK of the divider that also runs in mode W.
const SLOWEST: u8 = 6;
/// CN and ST of a timer.
const COUNTING: u8 = 0x03;

/// The host's edges at a tick.
#[derive(Clone, Copy)]
pub struct Edges {
    pub rise: u16,
    pub fall: u16,
}

impl Edges {
    pub fn between(before: u16, now: u16) -> Edges {
        Edges { rise: now & !before, fall: before & !now }
    }
}

impl Machine {
    /// Step 3 of a tick.
    pub fn settle(&mut self, image: &[u8], edges: Edges) {
        let reset = self.run_counters(edges);
        self.take_edges(edges);
        self.owed = self.owed.saturating_sub(1);
        if reset {
            self.reset(image);
        }
    }

    /// Runs what the mode lets run; true if the watchdog calls for a reset.
    fn run_counters(&mut self, edges: Edges) -> bool {
        match self.mode {
            Mode::Stopped => false,
            Mode::WakeTimer => {
                self.run_prescaler();
                if self.t0ck() == SLOWEST && self.timer0_pulse(edges) {
                    self.count_timer0();
                }
                false
            }
            Mode::Running => {
                self.run_prescaler();
                if self.timer0_pulse(edges) {
                    self.count_timer0();
                }
                if self.timer1_pulse(edges) {
                    self.count_timer1();
                }
                self.run_buzzer();
                self.run_interval_timer()
            }
        }
    }

    fn run_prescaler(&mut self) {
        self.prescaler = (self.prescaler + 1) % 2048;
    }

    /// Whether a divider pulses, once the prescaler has run.
    fn pulses(&self, divider: u16) -> bool {
        self.prescaler.is_multiple_of(divider)
    }

    fn t0ck(&self) -> u8 {
        self.timer[0].control >> 2 & 7
    }

    fn t1ck(&self) -> u8 {
        self.timer[1].control >> 2 & 3
    }

    fn timer0_pulse(&self, edges: Edges) -> bool {
        match T0_DIVIDERS.get(self.t0ck() as usize) {
            Some(&divider) => self.pulses(divider),
            None => edges.rise & pin::RA0 != 0 && self.direction[0] & 1 == 0,
        }
    }

    fn timer1_pulse(&self, edges: Edges) -> bool {
        match T1_DIVIDERS.get(self.t1ck() as usize) {
            Some(&divider) => self.pulses(divider),
            None => self.timer0_pulse(edges),
        }
    }

    fn count_timer0(&mut self) {
        if self.count_timer(0, self.t0ck()) {
            self.requests |= request::T0;
            self.comp = !self.comp;
        }
    }

    fn count_timer1(&mut self) {
        if self.count_timer(1, self.t1ck()) {
            self.requests |= request::T1;
        }
    }

    /// A pulse at a timer; true at a match.
    fn count_timer(&mut self, i: usize, source: u8) -> bool {
        let timer = &mut self.timer[i];
        if timer.control & COUNTING != COUNTING {
            return false;
        }
        let matched = timer.count == timer.limit;
        timer.count = if matched { 0 } else { timer.count.wrapping_add(1) };
        hit(Event::Pulse(i as u8, source, matched));
        matched
    }

    fn run_buzzer(&mut self) {
        let buck = self.buzzer.control >> 6;
        if !self.pulses(8 << buck) {
            return;
        }
        let buzzer = &mut self.buzzer;
        if buzzer.count == buzzer.control & 0x3F {
            buzzer.count = 0;
            buzzer.level = !buzzer.level;
            hit(Event::Turn(buck));
        } else {
            buzzer.count = (buzzer.count + 1) % 64;
        }
    }

    fn run_interval_timer(&mut self) -> bool {
        let bts = self.ckctlr & ckctlr::BTS;
        if !self.pulses(8 << bts) {
            return false;
        }
        self.bitr = self.bitr.wrapping_add(1);
        if self.bitr != 0 {
            return false;
        }
        hit(Event::Bit(bts));
        self.requests |= request::BIT;
        self.step_watchdog()
    }

    fn step_watchdog(&mut self) -> bool {
        if self.watchdog != self.wdtr {
            self.watchdog = (self.watchdog + 1) % 128;
            return false;
        }
        self.watchdog = 0;
        let reset = self.ckctlr & ckctlr::WDTON != 0;
        if !reset {
            self.requests |= request::WDT;
        }
        hit(if reset { Event::WatchdogReset } else { Event::WatchdogRequest });
        reset
    }

    fn take_edges(&mut self, edges: Edges) {
        self.take_edge(edges, rbfunc::INT0I, pin::RB2, self.ieds, request::INT0);
        self.take_edge(edges, rbfunc::INT1I, pin::RB3, self.ieds >> 2, request::INT1);
    }

    fn take_edge(&mut self, edges: Edges, enable: u8, pin: u16, pair: u8, request: u16) {
        let fell = pair & 1 != 0 && edges.fall & pin != 0;
        let rose = pair & 2 != 0 && edges.rise & pin != 0;
        if self.rbfunc & enable != 0 && (fell || rose) {
            self.requests |= request;
            hit(Event::Edge(request.leading_zeros() as u8, rose, self.mode.letter()));
        }
    }
}
