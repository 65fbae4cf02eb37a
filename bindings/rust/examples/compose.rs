// Builds five packets, a position, one with a time, a message, a status and a Mic-E report, and writes each as a line of
// text and as an AX.25 frame. The first has a Q element in its path, which its frame is written without.

use tusselgro::mic_e::{Course, Message, Speed};
use tusselgro::{AprsPacket, Latitude, Longitude, QConstruct, Refusal, Timestamp};

fn print(packet: &AprsPacket<'_>) -> Result<(), Refusal> {
    let mut line = Vec::new();
    packet.encode_textual(&mut line)?;
    println!("{}", String::from_utf8_lossy(&line));

    let mut frame = Vec::new();
    packet.encode_ax25(&mut frame)?;
    for row in frame.chunks(16) {
        let row: Vec<String> = row.iter().map(|byte| format!("{byte:02x}")).collect();
        println!("    {}", row.join(" "));
    }
    Ok(())
}

fn main() -> Result<(), Refusal> {
    let latitude = Latitude::from_dmh(49, 3, 50, true)?;
    let longitude = Longitude::from_dmh(72, 1, 75, false)?;
    let position = AprsPacket::position("N7LEM", "NJ7P", latitude, longitude)
        .heard_hop("N0CALL-1")
        .q_construct(QConstruct::AR)
        .hop("W1AW")
        .symbol(b'/', b'-')
        .comment(b"Test 001234")
        .build()?;
    print(&position)?;

    let timed = AprsPacket::position("N7LEM", "NJ7P", latitude, longitude)
        .timestamp(Timestamp::new_dhm(9, 23, 45)?)
        .messaging(true)
        .symbol(b'/', b'>')
        .build()?;
    print(&timed)?;

    let message = AprsPacket::message("N7LEM", "NJ7P", "WU2Z", b"Testing")
        .id(b"003")
        .build()?;
    print(&message)?;

    let status = AprsPacket::status("N7LEM", "NJ7P", b"Net Control Center")
        .timestamp(Timestamp::new_dhm(9, 23, 45)?)
        .build()?;
    print(&status)?;

    let latitude = Latitude::from_dmh(33, 25, 64, true)?;
    let longitude = Longitude::from_dmh(112, 7, 74, false)?;
    let report = AprsPacket::mic_e("N7LEM", latitude, longitude)
        .message(Message::M3)
        .motion(Speed::new(20)?, Course::new(251)?)
        .symbol(b'/', b'j')
        .build()?;
    print(&report)
}
