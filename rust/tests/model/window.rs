//! The gate window by definition: what a list of resets and readings leaves, from the list itself; what one reading
//! leaves of any record, by the request's words; and the four characters.

/// The last headroom, the lowest, and the number of readings.
pub type Numbers = (i64, i64, u64);

/// Number and four characters.
pub type Reply = (u32, String);

const MOST: u64 = 1_000_000;

/// One digit of tenths, right-aligned to four characters.
pub fn shown(tenths: i64) -> String {
    match tenths {
        1000.. => "HIGH".to_string(),
        0..=999 => format!("{:>2}.{}", tenths / 10, tenths % 10),
        -99..=-1 => format!("-{}.{}", -tenths / 10, -tenths % 10),
        _ => "LOW ".to_string(),
    }
}

fn reply(read: Result<i64, u32>) -> Reply {
    read.map_or_else(|number| (number, " ".repeat(4)), |headroom| (0, shown(headroom)))
}

// what a reading gives: the headroom's refusal, then 20
fn read(headroom: Result<i64, u32>, count: u64) -> Result<i64, u32> {
    headroom.and_then(|headroom| if count >= MOST { Err(20) } else { Ok(headroom) })
}

/// What was told to a gate.
#[derive(Clone, Copy, Debug, PartialEq, Eq)]
pub enum Told {
    Reset,
    /// with its headroom if it was accepted, else the number of its refusal
    Reading(Result<i64, u32>),
}

/// All that was told to a gate, the newest last.
#[derive(Clone, Debug, PartialEq, Eq)]
pub struct List(Vec<Told>);

impl List {
    /// It begins with a reset.
    pub fn of(told: Vec<Told>) -> List {
        assert_eq!(told.first(), Some(&Told::Reset));
        List(told)
    }

    pub fn reset(&mut self) {
        self.0.push(Told::Reset);
    }

    pub fn reading(&mut self, headroom: Result<i64, u32>) -> Reply {
        let read = read(headroom, self.accepted().count() as u64);
        self.0.push(Told::Reading(read));
        reply(read)
    }

    /// The headrooms of the readings accepted since the last reset, the latest first.
    pub fn accepted(&self) -> impl Iterator<Item = i64> {
        let since = self.0.iter().rev().take_while(|&&told| told != Told::Reset);
        since.filter_map(|told| if let Told::Reading(Ok(headroom)) = told { Some(*headroom) } else { None })
    }

    /// The latest, the least, and how many; 0 if there is none.
    pub fn numbers(&self) -> Numbers {
        let latest = self.accepted().next().unwrap_or(0);
        let least = self.accepted().min().unwrap_or(0);
        (latest, least, self.accepted().count() as u64)
    }
}

/// One reading of any record: what it then holds, and the reply.
pub fn reading((last, lowest, count): Numbers, headroom: Result<i64, u32>) -> (Numbers, Reply) {
    let read = read(headroom, count);
    let numbers = match read {
        Err(_) => (last, lowest, count),
        Ok(first) if count == 0 => (first, first, 1),
        Ok(next) => (next, if next < lowest { next } else { lowest }, count + 1),
    };
    (numbers, reply(read))
}
