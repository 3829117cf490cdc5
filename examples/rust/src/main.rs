//! Two ends that are joined by a cable, until both distribute: `examples/c/two_ends.c` in Rust.

mod lag;
mod raw;

use lag::{Config, Port, Received, Refusal, System};

/// One end: port 1, whose link is up, in aggregator 1.
fn make_end(number: u8) -> Result<System, Refusal> {
    let mac = [2, 0, 0, 0, 0, number];
    let config = Config {
        priority: 32768,
        mac,
        conversations: 256,
        ..Config::default()
    };
    let port = Port {
        number: 1,
        mac,
        key: 1,
        aggregatable: true,
        active: true,
        ..Port::default()
    };
    let mut end = System::new(&config, &[1], &[port])?;
    end.set_link(1, true)?;
    Ok(end)
}

/// 100 ms pass at one end, and what it sends comes to the other, whose answers come back.
fn pass(from: &mut System, to: &mut System) -> Result<(), Refusal> {
    from.tick()?;
    while let Some(frame) = from.transmit(1)? {
        if let Received::Respond(response) = to.receive(1, &frame)? {
            from.receive(1, &response)?;
        }
    }
    Ok(())
}

fn main() -> Result<(), Box<dyn std::error::Error>> {
    let (mut one, mut two) = (make_end(1)?, make_end(2)?);
    for ticks in 0..100 {
        if one.distributes(1)? && two.distributes(1)? {
            println!("both ends distribute after {ticks} ticks of 100 ms");
            return Ok(());
        }
        pass(&mut one, &mut two)?;
        pass(&mut two, &mut one)?;
    }
    Err("the ends do not come to distribute".into())
}
