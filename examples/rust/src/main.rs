//! A small monitor, written for vm-allocator: its Cargo.toml alone knows that Rangekeeper stands behind the name.

use vm_allocator::{AddressAllocator, AllocPolicy, Error, IdAllocator, RangeInclusive, Result};

struct Card {
    name: &'static str,
    size: u64,
    policy: AllocPolicy,
}

struct Plugged {
    window: RangeInclusive,
    irq: u32,
}

struct Monitor {
    windows: AddressAllocator,
    irqs: IdAllocator,
}

impl Monitor {
    fn new() -> Result<Self> {
        Ok(Monitor { windows: AddressAllocator::new(0xd000_0000, 0x2000_0000)?, irqs: IdAllocator::new(5, 23)? })
    }

    /// A window at a multiple of its size, and an interrupt number: both or neither.
    fn plug_in(&mut self, card: &Card) -> Result<Plugged> {
        let window = self.windows.allocate(card.size, card.size, card.policy)?;
        match self.irqs.allocate_id() {
            Ok(irq) => {
                println!("{:8} window {:#x}..{:#x}, interrupt {}", card.name, window.start(), window.end(), irq);
                Ok(Plugged { window, irq })
            }
            Err(error) => {
                self.windows.free(&window)?;
                Err(error)
            }
        }
    }

    fn pull_out(&mut self, plugged: &Plugged) -> Result<()> {
        self.irqs.free_id(plugged.irq)?;
        self.windows.free(&plugged.window)
    }
}

fn main() -> Result<()> {
    let cards = [
        Card { name: "network", size: 0x1000, policy: AllocPolicy::FirstMatch },
        Card { name: "disk", size: 0x4000, policy: AllocPolicy::FirstMatch },
        Card { name: "display", size: 0x100_0000, policy: AllocPolicy::LastMatch },
    ];
    let mut monitor = Monitor::new()?;
    let plugged = cards.iter().map(|card| monitor.plug_in(card)).collect::<Result<Vec<_>>>()?;

    monitor.pull_out(&plugged[1])?;
    println!("{:8} given back", cards[1].name);
    match monitor.pull_out(&plugged[1]) {
        Err(Error::AlreadyReleased(irq)) => println!("{:8} once more: interrupt {irq} is already released", cards[1].name),
        other => println!("{:8} once more: {other:?}", cards[1].name),
    }
    let taken = AllocPolicy::ExactMatch(plugged[0].window.start());
    match monitor.windows.allocate(0x1000, 0x1000, taken) {
        Err(error) => println!("{:8} window once more: {error}", cards[0].name),
        Ok(window) => println!("{:8} window once more: {window:?}", cards[0].name),
    }
    monitor.plug_in(&cards[1])?;
    Ok(())
}
