//! The chip of the worked cases, on the model.

use rig::model::{Model, Outcome, Packed, Paper, Record, Transaction};

/// A chip on the model, with its last response.
pub struct Case {
    pub record: Packed,
    pub array: Vec<u8>,
    pub response: Vec<u8>,
}

/// Bench part, standby, BP 0, SRWD 0, latch set.
pub fn worked() -> Record {
    Record { latch: true, ..Record::standby(0) }
}

/// A chip with this record and an array of FF.
pub fn case(record: Record) -> Case {
    let array = vec![0xFF; record.figures().bytes];
    Case { record: record.pack(), array, response: Vec::new() }
}

impl Case {
    pub fn run(&mut self, sent: &[u8], pulses: u32, w: u32) -> Outcome {
        self.response = vec![0; sent.len()];
        let t = Transaction { sent, pulses, w };
        Paper.transact(&mut self.record, &mut self.array, t, &mut self.response)
    }

    pub fn answer(&mut self, sent: &[u8]) -> u8 {
        self.run(sent, 0, 1).answer
    }

    pub fn wait(&mut self, ticks: u32) {
        assert_eq!(Paper.wait(&mut self.record, &mut self.array, ticks).answer, 0);
    }

    pub fn status(&mut self) -> u8 {
        let outcome = self.run(&[0x05, 0x00], 0, 1);
        assert_eq!((outcome.answer, outcome.first, outcome.count), (0, 1, 1));
        self.response[1]
    }

    pub fn now(&self) -> Record {
        Record::unpack(&self.record).unwrap()
    }
}
