//! Document 02, W-214: four benches, one encoder.
use super::plain::psn_answer;

/// The PSN with which each bench waits, and the bench at which the next serve begins.
#[derive(Clone, Copy, Debug, PartialEq, Eq)]
pub struct Queue {
    pub waiting: [Option<u32>; 4],
    pub turn: u8,
}

impl Queue {
    /// Number, place, bench and PSN.
    pub fn order(&mut self, record: &[u8]) -> (u32, usize, u8, u32) {
        match record.first() {
            Some(1) if record.len() == 6 => {
                let psn = u32::from_be_bytes([record[2], record[3], record[4], record[5]]);
                (self.submit(record[1] as usize, psn), 0, 0, 0)
            }
            Some(2) if record.len() == 1 => {
                let (bench, psn) = self.serve();
                (0, 0, bench, psn)
            }
            _ => (26, 0, 0, 0),
        }
    }

    fn submit(&mut self, bench: usize, psn: u32) -> u32 {
        if bench > 3 {
            return 27;
        }
        if self.waiting[bench].is_some() {
            return 28;
        }
        let number = psn_answer(psn);
        if number == 0 {
            self.waiting[bench] = Some(psn);
        }
        number
    }

    fn serve(&mut self) -> (u8, u32) {
        let turn = if self.turn > 3 { 0 } else { self.turn as usize };
        for k in 0..4 {
            let bench = (turn + k) % 4;
            if let Some(psn) = self.waiting[bench] {
                self.waiting[bench] = None;
                self.turn = ((bench + 1) % 4) as u8;
                return (bench as u8, psn);
            }
        }
        (255, 0)
    }
}
