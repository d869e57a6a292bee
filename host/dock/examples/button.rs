//! A user presses the removal button of bay 0 while the host is in the middle of a write.
//!
//! The dock starts with a USB device in bay 0. The host enables the bay, locked and powered, and then clears the
//! "device status changed" bit; between the register byte and the data byte of that write the button goes down and
//! settles. The program holds the dock, gives it one word after the other, prints what came of each, and what the
//! status register reads at the end.

use dock::{Bay, Dock, Error, Event, Register};

const OWN: u8 = 0x90;

/// Locked, Enabled requested, both interrupts enabled, powered.
const ENABLE: u8 = 0x80 | 0x20 | 0x08 | 0x04 | 0x01;
const CLEAR_STATUS_CHANGED: u8 = 0x04;

const USB_IN_BAY_0: u8 = 0xBF;
const BUTTON_DOWN: u8 = 0x9F;
const BUTTON_TICKS: usize = 5;

fn tell(dock: &mut Dock, event: Event) -> Result<(), Error> {
    let word = u16::try_from(event)?;
    let step = dock.step(word)?;
    println!("{:04X}  {:12}  {:16}  {}", word, event.to_string(), step.reply.to_string(), step.outputs);
    Ok(())
}

fn tell_all(dock: &mut Dock, events: &[Event]) -> Result<(), Error> {
    events.iter().try_for_each(|&event| tell(dock, event))
}

/// The write that clears the bit, with the press between its register byte and its data byte.
fn interrupted_write(dock: &mut Dock) -> Result<(), Error> {
    let write = dock::write(OWN, Register::status(Bay::Zero), CLEAR_STATUS_CHANGED);
    let (until_register, from_data) = write.split_at(3);
    tell_all(dock, until_register)?;
    tell(dock, Event::Pins(BUTTON_DOWN))?;
    tell_all(dock, &[Event::Tick; BUTTON_TICKS])?;
    tell_all(dock, from_data)
}

fn main() -> Result<(), Error> {
    let mut dock = Dock::new()?;
    tell(&mut dock, Event::Reset { straps: 0, levels: USB_IN_BAY_0, short_pulse: false })?;
    tell_all(&mut dock, &dock::write(OWN, Register::control(Bay::Zero), ENABLE))?;
    interrupted_write(&mut dock)?;
    tell_all(&mut dock, &dock::read(OWN, Register::status(Bay::Zero)))?;
    println!("bay 0 reads {}", dock.status(Bay::Zero)?);
    Ok(())
}
