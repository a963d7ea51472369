//! Counts by call and number, and the numbers that each call must have given by the end.

/// Each call of the header with its numbers in the order in which it tests, 0 (not refused) first.
pub const CALLS: [(&str, &[u32]); 22] = [
    ("check_word", &[0]),
    ("message_check", &[0, 10, 12]),
    ("write", &[0, 8, 9, 10, 12, 11]),
    ("read", &[0, 2, 1, 3, 4, 5, 6, 7, 8, 9, 10, 12, 11]),
    ("nrzi_encode", &[0, 2, 11]),
    ("nrzi_decode", &[0, 2, 11]),
    ("slave_make", &[0, 8]),
    ("slave_put", &[0, 30, 10, 12, 13]),
    ("slave_take", &[0, 30, 14, 11]),
    ("slave_step", &[0, 30, 11, 9, 10, 12, 19]),
    ("slave_restart", &[0, 30]),
    ("slave_clear", &[0, 30]),
    ("master_make", &[0, 8, 15]),
    ("master_put", &[0, 30, 10, 12, 13]),
    ("master_take", &[0, 30, 14, 11]),
    ("master_order", &[0, 30, 17, 11]),
    ("master_response", &[0, 30, 16, 9, 10, 12]),
    ("master_silence", &[0, 30, 16]),
    ("master_restart", &[0, 30]),
    ("master_clear", &[0, 30]),
    ("record", &[0, 18, 8, 9, 10, 12]),
    ("list", &[0, 11]),
];

/// What was compared, and what calls that were not refused told.
pub const THINGS: [&str; 20] = [
    "frames written and read back",
    "frames with five ones at the very end",
    "frames with something wrong written",
    "lines read and turned by NRZI",
    "control bytes",
    "messages checked",
    "records at a place",
    "captures listed",
    "captures of the longest size or longer",
    "histories",
    "calls of histories",
    "calls on wild layout bytes",
    "of these, bytes that are no end",
    "held messages confirmed to a slave",
    "held messages confirmed to a master",
    "messages handed over to a slave",
    "messages handed over to a master",
    "links gained",
    "links lost",
    "responses counted as silence",
];

#[derive(Default)]
pub struct Tally {
    numbers: [[u64; 31]; CALLS.len()],
    things: [u64; THINGS.len()],
}

impl Tally {
    pub fn number(&mut self, call: &str, number: u32) {
        let row = CALLS.iter().position(|(name, _)| *name == call);
        self.numbers[row.expect("the call is in the list")][number as usize] += 1;
    }

    pub fn thing(&mut self, thing: &str, times: u64) {
        let row = THINGS.iter().position(|name| *name == thing);
        self.things[row.expect("the thing is in the list")] += times;
    }

    pub fn add(&mut self, other: &Tally) {
        for (mine, theirs) in self
            .numbers
            .iter_mut()
            .flatten()
            .zip(other.numbers.iter().flatten())
        {
            *mine += theirs;
        }
        for (mine, theirs) in self.things.iter_mut().zip(&other.things) {
            *mine += theirs;
        }
    }

    /// Prints both tables.
    pub fn print(&self) {
        println!("{:<40} times", "compared");
        for (name, times) in THINGS.iter().zip(&self.things) {
            println!("{name:<40} {times}");
        }
        println!();
        println!("{:<16} number: times, in the order of the tests", "call");
        for ((name, listed), times) in CALLS.iter().zip(&self.numbers) {
            let cells: Vec<String> = listed
                .iter()
                .map(|number| format!("{number}: {}", times[*number as usize]))
                .collect();
            println!("{name:<16} {}", cells.join("  "));
        }
    }

    /// What is missing, or there though it is not in the call's list; empty where all is well.
    pub fn faults(&self) -> Vec<String> {
        let mut faults = Vec::new();
        for ((name, listed), times) in CALLS.iter().zip(&self.numbers) {
            for (number, times) in times.iter().enumerate() {
                let met = *times > 0;
                if met != listed.contains(&(number as u32)) {
                    let fault = if met {
                        "is not in its list but was met"
                    } else {
                        "was never met"
                    };
                    faults.push(format!("{name}: {number} {fault}"));
                }
            }
        }
        for (name, times) in THINGS.iter().zip(&self.things) {
            if *times == 0 {
                faults.push(format!("{name}: none"));
            }
        }
        faults
    }
}
