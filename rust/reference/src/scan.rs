//! Scan positions (document 01, "One operation, one reply" and "Worst count").

/// The last station that a scan may address.
pub const LAST_STATION: u64 = 23;
/// The last subaddress of a station.
pub const LAST_SUBADDRESS: u64 = 15;

/// Station and subaddress of one operation.
///
/// The order is the scan's: station first, then subaddress.
#[derive(Clone, Copy, Debug, PartialEq, Eq, PartialOrd, Ord)]
pub struct Position {
    pub station: u64,
    pub subaddress: u64,
}

impl Position {
    /// "a done word steps A by 1, from 15 to subaddress 0 of the next station";
    /// `None` when that leaves station 23.
    pub fn after_done(self) -> Option<Position> {
        if self.subaddress < LAST_SUBADDRESS {
            let subaddress = self.subaddress + 1;
            Some(Position { subaddress, ..self })
        } else {
            self.next_station()
        }
    }

    /// "any other answer goes to subaddress 0 of the next station"; `None` when that
    /// leaves station 23.
    pub fn next_station(self) -> Option<Position> {
        if self.station < LAST_STATION {
            let station = self.station + 1;
            let subaddress = 0;
            Some(Position {
                station,
                subaddress,
            })
        } else {
            None
        }
    }

    /// "P = (23 − N) × 16 + 16 − A": the positions from here to subaddress 15 of
    /// station 23, this one included.
    pub fn positions(self) -> u64 {
        (LAST_STATION - self.station) * 16 + 16 - self.subaddress
    }

    /// "S = 24 − N": the stations from here to station 23, this one included.
    pub fn stations(self) -> u64 {
        24 - self.station
    }

    /// "scan min(P, n − 1 + S)", for `words` words from here on.
    pub fn most_operations(self, words: u64) -> u64 {
        self.positions().min(words - 1 + self.stations())
    }
}
