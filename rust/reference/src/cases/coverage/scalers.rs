//! What rows of scalers meet (document 02's E10).

use super::{Coverage, Event};
use crate::cases::scalers::Way;

/// Where the refused longword stands in its row.
#[derive(Clone, Copy, Debug, PartialEq, Eq, PartialOrd, Ord)]
pub enum Longword {
    Only,
    First,
    Between,
    Last,
}

/// What a longword is refused for.
#[derive(Clone, Copy, Debug, PartialEq, Eq, PartialOrd, Ord)]
pub enum Fault {
    /// This bit, of 29 to 24, alone.
    Bit(u32),
    /// This digit in this place, counted from the lowest, alone.
    Digit(u32, u32),
    /// The value 1,000,000, or another above 999,999, alone.
    LeastAbove,
    Above,
    Several,
}

impl Coverage {
    /// Counters for rows of scalers.
    pub fn of_scalers() -> Coverage {
        Coverage::expecting(Way::BOTH.into_iter().flat_map(of_way))
    }

    /// Counts what a row meets.
    pub fn observe_scalers(&mut self, way: Way, row: &[u8]) {
        let (longwords, rest) = row.as_chunks();
        let longwords = longwords.iter().copied().map(u32::from_le_bytes);
        let is_refused = |longword: &u32| way.converted(*longword).is_none();
        let faulty = longwords.clone().filter(is_refused).count();
        if !rest.is_empty() {
            return self.met(Event::PartLongword(way, faulty > 0));
        }
        let length = longwords.len();
        self.met_if(length == 0, Event::NoScaler(way));
        self.met_if(length > 0 && faulty == 0, Event::Converted(way));
        self.met_if(faulty > 1, Event::FaultsBehind(way));
        let first = longwords.clone().position(|one| is_refused(&one));
        if let Some((number, longword)) = first.zip(longwords.clone().find(is_refused)) {
            self.met(Event::RefusedScaler(way, fault(way, longword)));
            self.met(Event::RefusedAt(way, place(number, length)));
        }
    }
}

fn place(number: usize, length: usize) -> Longword {
    match number {
        0 if length == 1 => Longword::Only,
        0 => Longword::First,
        _ if number + 1 == length => Longword::Last,
        _ => Longword::Between,
    }
}

/// What a longword is refused for that this way refuses.
fn fault(way: Way, longword: u32) -> Fault {
    let bits = (24..30).filter(|bit| longword >> bit & 1 != 0);
    let mut faults: Vec<Fault> = bits.map(Fault::Bit).collect();
    let data = longword & 0xFF_FFFF;
    match way {
        Way::ToBinary => {
            let digits = (0..6).map(|place| (place, data >> (4 * place) & 0xF));
            let above = digits.filter(|(_, digit)| *digit > 9);
            faults.extend(above.map(|(place, digit)| Fault::Digit(place, digit)));
        }
        Way::ToDecimal if data == 1_000_000 => faults.push(Fault::LeastAbove),
        Way::ToDecimal if data > 1_000_000 => faults.push(Fault::Above),
        Way::ToDecimal => {}
    }
    match faults[..] {
        [fault] => fault,
        _ => Fault::Several,
    }
}

fn of_way(way: Way) -> Vec<Event> {
    let mut faults: Vec<Fault> = (24..30).map(Fault::Bit).collect();
    faults.push(Fault::Several);
    match way {
        Way::ToBinary => {
            let digits = (0..6).flat_map(|place| (10..16).map(move |digit| (place, digit)));
            faults.extend(digits.map(|(place, digit)| Fault::Digit(place, digit)));
        }
        Way::ToDecimal => faults.extend([Fault::LeastAbove, Fault::Above]),
    }
    let places = [
        Longword::Only,
        Longword::First,
        Longword::Between,
        Longword::Last,
    ];
    let rows = [
        Event::Converted(way),
        Event::NoScaler(way),
        Event::PartLongword(way, false),
        Event::PartLongword(way, true),
        Event::FaultsBehind(way),
    ];
    let faults = faults.into_iter().map(|f| Event::RefusedScaler(way, f));
    let places = places.into_iter().map(|place| Event::RefusedAt(way, place));
    rows.into_iter().chain(faults).chain(places).collect()
}
