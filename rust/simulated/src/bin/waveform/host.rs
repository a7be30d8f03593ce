//! A host: it makes the operations that the engine wants, and keeps and serves demands.

use crate::{lists, words};
use camlist::{row, Demand, Demands, Operation, Record, Refusal, Reply, Run};
use simulated::Crate;

/// The most replies that are collected before the engine takes them.
pub const ROW: u64 = 100;

/// Bytes of the incoming buffer: the longest event's.
pub const INCOMING: usize = 2 * simulated::SAMPLES as usize + 8;

/// For the two decimal scalers, in digits.
pub const OUTGOING: [u8; 8] = [0x56, 0x34, 0x12, 0, 0x90, 0x08, 0, 0];

/// The crate and the demands that it sent.
pub struct Host {
    pub simulated: Crate,
    demands: Demands,
}

/// What a run came to.
pub struct Ended {
    pub record: Record,
    pub incoming: Vec<u8>,
    /// Operations made on the crate.
    pub made: u64,
}

impl Host {
    pub fn power_up() -> Host {
        Host {
            simulated: Crate::new(lists::CRATE as u8),
            demands: Demands::new(),
        }
    }

    /// Runs a list operation by operation. The first few are printed.
    pub fn run_by_step(&mut self, list: &[u8], printed: u64) -> Result<Ended, Refusal> {
        let mut incoming = vec![0; INCOMING];
        let mut run = Run::start(list, &mut incoming, &OUTGOING)?;
        let mut made = 0;
        while let Some(wanted) = run.wanted() {
            if made < printed {
                let (n, a, f) = (wanted.station, wanted.subaddress, wanted.function);
                let data = wanted.data;
                println!("  operation {}: N {n} A {a} F {f}, data {data}", made + 1);
            }
            let reply = self.make_operation(wanted, &mut made)?;
            run.step(reply)?;
        }
        let record = run.record();
        Ok(Ended {
            record,
            incoming,
            made,
        })
    }

    /// Runs a list of which one instruction, `block`, is a block of reads in stop, and yields how
    /// many rows it took. An adapter may make operations before the engine has seen the replies
    /// to those before them only where it knows that they will be wanted. All words that are left
    /// of such a block want the same operation, while each answer has Q = X = 1 and no other
    /// flag. Any other reply closes the block or ends the run: behind it the engine may want
    /// another operation or none, and a word read too early would be lost. So the row ends there.
    /// The other instructions here want one operation each. In a scan the answer decides on the
    /// next subaddress, and in a block of writes every operation has other data: those go
    /// operation by operation.
    pub fn run_by_rows(&mut self, list: &[u8], block: u64) -> Result<(Ended, usize), Refusal> {
        let mut incoming = vec![0; INCOMING];
        let mut run = Run::start(list, &mut incoming, &OUTGOING)?;
        let (mut made, mut rows) = (0, 0);
        while let Some(wanted) = run.wanted() {
            let record = run.record();
            let is_block = record.instruction() == block;
            let left = if is_block { record.words_left() } else { 1 };
            let replies = self.collect(wanted, left.min(ROW), &mut made)?;
            run.steps(&row(replies))?;
            rows += 1;
        }
        let record = run.record();
        let ended = Ended {
            record,
            incoming,
            made,
        };
        Ok((ended, rows))
    }

    /// Makes an operation again and again, and collects the replies. The first that is not a
    /// plain answer with Q = X = 1 is the last of its row.
    fn collect(
        &mut self,
        wanted: Operation,
        most: u64,
        made: &mut u64,
    ) -> Result<Vec<Reply>, Refusal> {
        let mut replies = Vec::new();
        for _ in 0..most {
            let reply = self.make_operation(wanted, made)?;
            replies.push(reply);
            if reply.bytes()[..2] != [0, 0b11] {
                break;
            }
        }
        Ok(replies)
    }

    fn make_operation(&mut self, wanted: Operation, made: &mut u64) -> Result<Reply, Refusal> {
        let reply = self.simulated.reply_to(wanted);
        *made += 1;
        self.keep_demands(*made)?;
        Ok(reply)
    }

    /// Keeps the demands that came with an operation.
    fn keep_demands(&mut self, operation: u64) -> Result<(), Refusal> {
        let demands = self.simulated.demands();
        self.demands.add_row(&demands)?;
        for [crate_number, sgl] in demands.as_chunks().0 {
            println!("  operation {operation}: a demand of crate {crate_number}, SGL {sgl:02X}");
        }
        Ok(())
    }

    /// Serves the demands that wait, the oldest first: the SGL byte is the station.
    pub fn serve_demands(&mut self) -> Result<(), Refusal> {
        while let Some(Demand { crate_number, sgl }) = self.demands.take()?.demand {
            let list = lists::service(u32::from(crate_number), u32::from(sgl));
            let ended = self.run_by_step(&list, 0)?;
            let code = words::code(&ended.record);
            println!("  served the demand of station {sgl}, {code}");
        }
        Ok(())
    }
}
