//! Opens the small shift of the exact rules, takes its three messages, one by itself and two in a packet, and prints the release sheet.

use zankezurt::{Refusal, Shift};

/// Mark 0 at some time in the last 2 minutes.
const POLICY: [u8; 13] = [0x01, 0x01, 0x04, 0x00, 0x03, 0x00, 0x01, 0x01, 0x35, 0x04, 0x01, 0x02, 0x00];

const MESSAGE: [u8; 8] = [0x0C, 0x01, 0x00, 0x01, 0x00, 0x00, 0x00, 0x00];

/// Two messages end to end.
const PACKET: [u8; 15] = [0x0E, 0x02, 0x00, 0x02, 0x00, 0x01, 0x00, 0x00, 0x00, 0x01, 0x06, 0x03, 0x00, 0x03, 0x00];

fn main() -> Result<(), Refusal> {
    let mut shift = Shift::open(&POLICY)?;
    let message = shift.receive(&MESSAGE);
    let packet = shift.receive_packet(&PACKET);

    for (minute, rule, verdict) in shift.verdicts() {
        println!("{minute} {rule} {verdict}");
    }
    let taken = usize::from(message.is_ok()) + packet.taken;
    let refused = usize::from(message.is_err()) + usize::from(packet.refusal.is_some());
    println!("taken {taken} refused {refused}");
    Ok(())
}
