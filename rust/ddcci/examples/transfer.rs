//! What a host does: reads a display's capabilities string over a line that loses every third reply, and shows its
//! words.
//!
//!     cargo run --example transfer
//!
//! The display stands in this program too. Over I2C, `exchange` writes the request to address 37 and reads 38 bytes.
use std::error::Error;

use ddcci::{Display, Message, Timing, OUTPUT_ROOM, TABLE_ROOM};

const TEXT: &[u8] = b"(prot(monitor)vcp(10 12 60(0F 11)))";

struct I2c {
    display: Display,
    exchanges: usize,
}

impl I2c {
    /// Sends a request and returns what came back, or nothing.
    fn exchange(&mut self, request: &Message) -> Vec<u8> {
        let mut table = [0; TABLE_ROOM];
        let mut out = [0; OUTPUT_ROOM];
        let step = self.display.step(TEXT, &mut table, request, &mut out);
        self.exchanges += 1;
        let lost = self.exchanges.is_multiple_of(3);
        out[..if lost { 0 } else { step.length }].to_vec()
    }
}

fn read(i2c: &mut I2c) -> Result<(), Box<dyn Error>> {
    // README begins
    use ddcci::{Capabilities, Nodes, State, TextKind, Transfer};

    let mut buffer = [0; 4096];
    let mut transfer = Transfer::begin(TextKind::Capabilities, &mut buffer, 1000)?;
    while transfer.state() == State::Running {
        let reply = i2c.exchange(&transfer.request()?); // whatever came back, or nothing
        let _ = transfer.receive(&reply); // a refusal only counts: ask again
    }
    let text = transfer.finish()?; // the whole text; an error if the budget was used up before
    let mut nodes = Nodes::default();
    let capabilities = Capabilities::read(text, &mut nodes)?;
    for node in capabilities.nodes() {
        println!("{}{}", "  ".repeat(capabilities.depth(&node)), String::from_utf8_lossy(node.word));
    }
    // README ends
    Ok(())
}

fn main() -> Result<(), Box<dyn Error>> {
    let display = Display::start(Timing::default(), TEXT, 7)?;
    let mut i2c = I2c { display, exchanges: 0 };
    read(&mut i2c)?;
    println!("in {} exchanges", i2c.exchanges);
    Ok(())
}
