// Whole packets against the library itself, on the values of documents 01 and 02.

use crate::mic_e::{Course, Message, Speed};
use crate::*;

const LINE: &[u8] = b"N0CALL-01>APRS,WIDE1-1,WIDE2-2*,K1A:!4903.50N/07201.75W-Test";
const MIC_E: &[u8] = b"A>S32U6T:`(_fn\"Oj/Comment";
const TIMED: &[u8] = b"A>B:@092345z4903.50N/07201.75W>Test1234";
const MESSAGE: &[u8] = b"N0CALL-01>APRS,K1A*::WU2Z     :Testing{003";
const STATUS: &[u8] = b"N0CALL-01>APRS,K1A*:>092345zNet Control Center";
const INNER: &[u8] = b"A>B:}C>D:}E>F:}G>H,K1A*:!4903.50N/07201.75W-";
const FEED: &[u8] = b"N0CALL-01>APRS,TCPIP*,qAC,T2TEXAS,qAr,qAo:!4903.50N/07201.75W-";

fn read(line: &[u8]) -> AprsPacket<'_> {
    AprsPacket::decode_textual(line).unwrap()
}

fn written(packet: &AprsPacket<'_>) -> Result<Vec<u8>, Refusal> {
    let mut out = Vec::new();
    packet.encode_textual(&mut out).map(|()| out)
}

fn position_of<'p, 'a>(packet: &'p AprsPacket<'a>) -> &'p AprsPosition<'a> {
    match &packet.data {
        AprsData::Position(position) => position,
        _ => panic!("{packet:?}"),
    }
}

fn refusal(line: &[u8]) -> u8 {
    AprsPacket::decode_textual(line).map_or_else(Refusal::number, |_| 0)
}

#[test]
fn a_position_by_its_parts() {
    let packet = read(LINE);
    let position = position_of(&packet);
    assert_eq!(position.latitude.hundredths(), 294350);
    assert_eq!(position.longitude.hundredths(), -432175);
    assert_eq!(position.precision, Precision::HundredthMinute);
    assert_eq!((position.symbol_table, position.symbol_code), (b'/', b'-'));
    assert!(!position.messaging_supported);
    assert_eq!(
        (position.comment, packet.comment()),
        (&b"Test"[..], &b"Test"[..])
    );
    assert_eq!(
        (packet.from.as_str(), position.to.as_str()),
        ("N0CALL-01", "APRS")
    );
    assert_eq!(packet.to(), Some(&position.to));
}

#[test]
fn hops_in_order_and_heard_up_to_the_star() {
    let hops = |line| {
        read(line)
            .via
            .iter()
            .map(Via::to_string)
            .collect::<Vec<_>>()
    };
    assert_eq!(hops(LINE), ["WIDE1-1*", "WIDE2-2*", "K1A"]);
    assert_eq!(hops(b"X>Y,A,B*,C:"), ["A*", "B*", "C"]);
    assert!(hops(b"A>B:").is_empty());
}

#[test]
fn a_mic_e_report_by_its_parts() {
    let packet = read(MIC_E);
    let report = match packet.data {
        AprsData::MicE(report) => report,
        _ => panic!("{packet:?}"),
    };
    assert_eq!(report.latitude.hundredths(), 200564);
    assert_eq!(report.longitude.hundredths(), -72774);
    assert_eq!(report.precision, Precision::HundredthMinute);
    assert_eq!((report.message, report.current), (Message::M3, true));
    assert_eq!(
        (report.speed, report.course),
        (Speed::new(20).unwrap(), Course::new(251).unwrap())
    );
    assert_eq!((report.symbol_table, report.symbol_code), (b'/', b'j'));
    assert_eq!((packet.to(), packet.comment()), (None, &b"Comment"[..]));
}

#[test]
fn what_is_unknown_has_its_destination_and_is_not_written() {
    let packet = read(b"A>B-7:hi");
    assert_eq!(
        packet.data,
        AprsData::Unknown(Callsign::new("B-7").unwrap())
    );
    assert_eq!(
        (packet.to().map(Callsign::as_str), packet.comment()),
        (Some("B-7"), &b""[..])
    );
    assert_eq!(written(&packet), Err(Refusal::UnknownKind));
}

#[test]
fn what_is_read_is_written_as_it_stood() {
    for line in [
        LINE,
        MIC_E,
        MESSAGE,
        STATUS,
        FEED,
        b"X>Y,A,B*,C:=0000.00N/00000.00E-",
    ] {
        assert_eq!(written(&read(line)), Ok(line.to_vec()));
        let mut out = [0xaa; MOST_BYTES];
        assert_eq!(read(line).encode_textual_to_slice(&mut out), Ok(line));
        assert!(out[line.len()..].iter().all(|byte| *byte == 0xaa));
    }
}

/// Document 02's R-1, with Mic-E's sides of `0LLLLL` among them.
#[test]
fn a_zero_is_read_with_its_letter_and_written_north_or_east() {
    let cases: [(&[u8], bool, Side, &[u8]); 4] = [
        (
            b"A>B:!0000.00S/00000.00W-",
            true,
            Side::West,
            b"A>B:!0000.00N/00000.00E-",
        ),
        (
            b"A>B:=0000.00N/00000.00W-",
            false,
            Side::West,
            b"A>B:=0000.00N/00000.00E-",
        ),
        (
            b"A>0LLLLL:`(_fn\"Oj/",
            true,
            Side::East,
            b"A>0LLZLL:`(_fn\"Oj/",
        ),
        (
            b"A>0000PP:`vX\x1cn\"Oj/",
            true,
            Side::West,
            b"A>000PP0:`vX\x1cn\"Oj/",
        ),
    ];
    for (line, south, side, expected) in cases {
        let packet = read(line);
        let (latitude, longitude) = match &packet.data {
            AprsData::Position(position) => (position.latitude, position.longitude),
            AprsData::MicE(report) => (report.latitude, report.longitude),
            _ => panic!("{packet:?}"),
        };
        assert_eq!((latitude.hundredths(), latitude.is_south()), (0, south));
        assert_eq!(longitude.side(), side);
        assert_eq!(written(&packet), Ok(expected.to_vec()));
    }
}

/// Document 02's R-3, with the examples of the Protocol Reference, chapter 8.
#[test]
fn a_timed_position_is_read_and_written_as_a_line_and_as_a_frame() {
    let cases: [(&[u8], Timestamp, bool); 4] = [
        (
            b"A>B:/092345z4903.50N/07201.75W>Test1234",
            Timestamp::DDHHMM(9, 23, 45),
            false,
        ),
        (
            b"A>B:@092345/4903.50N/07201.75W>Test1234",
            Timestamp::DDHHMMLocal(9, 23, 45),
            true,
        ),
        (
            b"A>B:/234517h4903.50N/07201.75W>Test1234",
            Timestamp::HHMMSS(23, 45, 17),
            false,
        ),
        (
            b"A>B:@000000h4903.50N/07201.75W>Test1234",
            Timestamp::HHMMSS(0, 0, 0),
            true,
        ),
    ];
    for (line, timestamp, messaging) in cases {
        let packet = read(line);
        let position = position_of(&packet);
        assert_eq!(position.timestamp, Some(timestamp));
        assert_eq!(position.messaging_supported, messaging);
        assert_eq!(position.latitude.hundredths(), 294350);
        assert_eq!(position.longitude.hundredths(), -432175);
        assert_eq!(position.comment, b"Test1234");
        assert_eq!(written(&packet), Ok(line.to_vec()));
        let mut frame = Vec::new();
        packet.encode_ax25(&mut frame).unwrap();
        assert_eq!(frame[16..], line[4..]);
        assert_eq!(AprsPacket::decode_ax25(&frame), Ok(packet));
    }
    assert_eq!(position_of(&read(LINE)).timestamp, None);
}

/// In a line and in a frame, behind either type byte.
#[test]
fn refusals_of_a_timed_position_in_their_order() {
    let cases: [(&[u8], u8); 10] = [
        (b"", 10),
        (b"xxxxxx", 10),
        (b"xxxxxxx", 17),
        (b"000000z/5L!!<*e7>7P[", 17),
        (b"010000z", 7),
        (b"010000z/5L!!<*e7>7P[", 7),
        (b"010000z0", 10),
        (b"010000z9000.01N/18000.01E-", 8),
        (b"010000z9000.00N/18000.01E-", 9),
        (b"010000z9000.00N/18000.00E-", 0),
    ];
    let mut header = Vec::new();
    let untimed = read(b"A>B:!0000.00N/00000.00E-");
    untimed.encode_ax25(&mut header).unwrap();
    header.truncate(16);
    for (first, (behind, expected)) in cases.iter().flat_map(|case| [(b'/', case), (b'@', case)]) {
        let body = [&[first], *behind].concat();
        assert_eq!(refusal(&[b"A>B:", &body[..]].concat()), *expected);
        let frame = [&header, &body[..]].concat();
        let found = AprsPacket::decode_ax25(&frame).map_or_else(Refusal::number, |_| 0);
        assert_eq!(found, *expected);
    }
}

#[test]
fn a_packet_with_a_time_out_of_range_is_not_written() {
    let mut out = [0xaa; MOST_BYTES];
    for wrong in [
        Timestamp::DDHHMM(32, 0, 0),
        Timestamp::DDHHMMLocal(1, 24, 0),
        Timestamp::HHMMSS(0, 0, 60),
    ] {
        let mut packet = read(LINE);
        if let AprsData::Position(position) = &mut packet.data {
            position.timestamp = Some(wrong);
        }
        let refused = Err(Refusal::OutOfRange);
        assert_eq!(packet.encode_textual_to_slice(&mut out), refused);
        assert_eq!(packet.encode_ax25_to_slice(&mut out), refused);
    }
    assert!(out.iter().all(|byte| *byte == 0xaa));
}

fn framed(packet: &AprsPacket<'_>) -> Result<Vec<u8>, Refusal> {
    let mut out = Vec::new();
    packet.encode_ax25(&mut out).map(|()| out)
}

/// A line, its addressee, text and identifier.
type Addressed<'a> = (&'a [u8], &'a str, &'a [u8], Option<&'a [u8]>);

/// Document 02's R-5. Both kinds keep their destination, whatever it is.
#[test]
fn a_message_is_read_and_written_as_a_line_and_as_a_frame() {
    let cases: [Addressed<'_>; 4] = [
        (b"A>B::WU2Z     :Testing", "WU2Z", b"Testing", None),
        (
            b"A>B::WU2Z     :Testing{003",
            "WU2Z",
            b"Testing",
            Some(b"003"),
        ),
        (b"A>B::::: : :: :{:", "::: : ::", b"", Some(b":")),
        (b"A>B::         :ack1", "", b"ack1", None),
    ];
    for (line, addressee, text, id) in cases {
        let packet = read(line);
        let message = match packet.data {
            AprsData::Message(message) => message,
            _ => panic!("{packet:?}"),
        };
        assert_eq!(message.addressee.to_string(), addressee);
        assert_eq!((message.text, message.id), (text, id));
        assert_eq!((packet.to(), packet.comment()), (Some(&message.to), text));
        assert_eq!(message.to.as_str(), "B");
        assert_eq!(written(&packet), Ok(line.to_vec()));
        let frame = framed(&packet).unwrap();
        assert_eq!(frame[16..], line[4..]);
        assert_eq!(AprsPacket::decode_ax25(&frame), Ok(packet));
    }
    let mic_e = read(b"A>S32U6T-0::WU2Z     :");
    assert_eq!(
        mic_e.to().map(Callsign::typed_text),
        Some("S32U6T-0".to_string())
    );
}

#[test]
fn a_status_is_read_and_written_as_a_line_and_as_a_frame() {
    let cases: [(&[u8], Option<Timestamp>, &[u8]); 5] = [
        (b"A>B:>Net Control Center", None, b"Net Control Center"),
        (
            b"A>B:>092345zNet Control Center",
            Some(Timestamp::DDHHMM(9, 23, 45)),
            b"Net Control Center",
        ),
        (b"A>B:>", None, b""),
        (b"A>B:>010000z", Some(Timestamp::DDHHMM(1, 0, 0)), b""),
        (b"A>B:>010000/x", None, b"010000/x"),
    ];
    for (line, timestamp, comment) in cases {
        let packet = read(line);
        let status = match packet.data {
            AprsData::Status(status) => status,
            _ => panic!("{packet:?}"),
        };
        assert_eq!((status.timestamp, status.comment), (timestamp, comment));
        assert_eq!((packet.to(), packet.comment()), (Some(&status.to), comment));
        assert_eq!(written(&packet), Ok(line.to_vec()));
        let frame = framed(&packet).unwrap();
        assert_eq!(frame[16..], line[4..]);
        assert_eq!(AprsPacket::decode_ax25(&frame), Ok(packet));
    }
}

/// In a line and in a frame: 18 "in place of the body's other numbers", but behind those of the header.
#[test]
fn what_is_no_message_and_no_status_is_refused_with_18() {
    let header = &framed(&read(b"A>B:>")).unwrap()[..16];
    let (long, longer) = ([b'x'; 63], [b'x'; 68]);
    let bodies: [&[u8]; 9] = [
        b":",
        b":WU2Z     ",
        b":WU2Z:Testing",
        b":WU2Z     :{",
        b":WU2Z     :{123456",
        b":WU2Z     :a|b",
        &[b":WU2Z     :", &longer[..]].concat(),
        &[b">", &long[..]].concat(),
        &[b">092345z", &long[..56]].concat(),
    ];
    for body in bodies {
        assert_eq!(refusal(&[b"A>B:", body].concat()), 18);
        assert_eq!(refusal(&[b"A->B:", body].concat()), 3);
        let frame = [header, body].concat();
        assert_eq!(AprsPacket::decode_ax25(&frame), Err(Refusal::Malformed));
    }
}

/// 15, 14, 18, 13, 16; a message is never too long for a packet, so 1 is not among them.
#[test]
fn refusals_of_a_message_written_in_their_order() {
    let message = |from, text| AprsPacket::message(from, "B", "WU2Z", text);
    let spoilt = message("ABCDEFG", b"|").build().unwrap();
    assert_eq!(written(&spoilt), Err(Refusal::Malformed));
    assert_eq!(framed(&spoilt), Err(Refusal::Malformed));
    let many = [b'x'; MOST_BYTES + 1];
    assert_eq!(
        written(&message("A", &many).build().unwrap()),
        Err(Refusal::Malformed)
    );
    let six = message("ABCDEFG", b"hi").id(b"123456").build().unwrap();
    assert_eq!(framed(&six), Err(Refusal::Malformed));
    let seven = message("ABCDEFG", b"hi").id(b"12345").build().unwrap();
    assert_eq!(framed(&seven), Err(Refusal::NotAx25));
    let mut out = [0xaa; MOST_BYTES];
    let needed = b"ABCDEFG>B::WU2Z     :hi{12345".len();
    assert_eq!(
        seven.encode_textual_to_slice(&mut out[..needed - 1]),
        Err(Refusal::NoRoom { needed })
    );
    let timed = AprsPacket::status("ABCDEFG", "B", &many).timestamp(Timestamp::HHMMSS(0, 0, 0));
    assert_eq!(framed(&timed.build().unwrap()), Err(Refusal::OutOfRange));
    let untimed = AprsPacket::status("A", "B", b"010000z").build().unwrap();
    assert_eq!(
        untimed.encode_textual_to_slice(&mut out),
        Err(Refusal::Malformed)
    );
    assert!(out.iter().all(|byte| *byte == 0xaa));
}

/// A line or a frame from A to B with a status, whose hops are these.
fn line_via(hops: &str) -> Vec<u8> {
    format!("A>B{hops}:>x").into_bytes()
}

fn frame_via(source: &[u8], hops: &[u8]) -> Vec<u8> {
    [b"\x84@@@@@\xe0", source, hops, b"\x03\xf0>x"].concat()
}

/// The source where a hop follows it, and where none does.
const SOURCE: &[u8] = b"\x82@@@@@\x60";
const LAST_SOURCE: &[u8] = b"\x82@@@@@\x61";

/// Document 02's R-7.
#[test]
fn every_q_element_is_read_and_written_at_its_place() {
    let names = [
        ("qAC", QConstruct::AC),
        ("qAX", QConstruct::AX),
        ("qAU", QConstruct::AU),
        ("qAo", QConstruct::Ao),
        ("qAO", QConstruct::AO),
        ("qAS", QConstruct::AS),
        ("qAr", QConstruct::Ar),
        ("qAR", QConstruct::AR),
        ("qAZ", QConstruct::AZ),
        ("qAI", QConstruct::AI),
    ];
    for (name, q) in names {
        for (hops, place) in [
            (format!(",{name}"), 0),
            (format!(",{name},C,D"), 0),
            (format!(",C*,{name},D"), 1),
            (format!(",C,D*,{name}"), 2),
            (format!(",1,2,3,4,5,6,7*,{name}"), 7),
        ] {
            let line = line_via(&hops);
            let packet = read(&line);
            assert_eq!(packet.via[place], Via::QConstruct(q));
            assert_eq!(written(&packet), Ok(line.clone()));
        }
        let line = line_via(&format!(",{name}"));
        let alone = frame_via(LAST_SOURCE, b"");
        assert_eq!(framed(&read(&line)), Ok(alone));
    }
}

/// Typed, and as each hop is then shown: a callsign with its own star, a Q element in brackets.
#[test]
fn stars_count_past_q_elements() {
    let shown = |line: &[u8]| {
        let hop = |via: &Via| match via {
            Via::Callsign(..) => via.to_string(),
            Via::QConstruct(q) => format!("[{q}]"),
        };
        read(line).via.iter().map(hop).collect::<Vec<_>>().join(" ")
    };
    let cases = [
        (",C,qAC,D*", "C* [qAC] D*"),
        (",C*,qAC,D", "C* [qAC] D"),
        (",qAC,C*", "[qAC] C*"),
        (
            ",C,qAC,qAR,D,qAo,E*,qAI,F",
            "C* [qAC] [qAR] D* [qAo] E* [qAI] F",
        ),
        (",C,qAC*,D", "C* qAC* D"),
        (",C,qAC-0,QAC,qA,qACC", "C qAC QAC qA qACC"),
    ];
    for (hops, expected) in cases {
        assert_eq!(shown(&line_via(hops)), expected);
    }
    let ends = read(b"qAC>qAC:>x");
    assert_eq!((ends.from.as_str(), ends.via.len()), ("qAC", 0));
    assert_eq!(ends.to().map(Callsign::as_str), Some("qAC"));
}

/// "counts among the eight"; "6 stays for any other three bytes that start `qA`".
#[test]
fn refusals_of_hops_in_their_order() {
    let cases = [
        (",qAC,qAX,qAU,qAo,qAO,qAS,qAr,qAR", 0),
        (",qAC,qAX,qAU,qAo,qAO,qAS,qAr,qAR,qAZ", 5),
        (",qAC,qAX,qAU,qAo,qAO,qAS,qAr,qAR,C", 5),
        (",1,2,3,4,5,6,7,8,qAC", 5),
        (",1,2,3,4,5,6,7,8,qAc", 5),
        (",qAC,qAc", 6),
        (",qA*", 6),
        (",qA-", 6),
        (",qAc,C-", 6),
        (",C-,qAc", 3),
        (",qAC-", 3),
    ];
    for (hops, expected) in cases {
        assert_eq!(refusal(&line_via(hops)), expected, "{hops}");
    }
}

/// The star goes to the last callsign that was heard, and a Q element never has it.
#[test]
fn a_callsign_spelt_as_a_q_element_is_written_as_it_stands() {
    let line = line_via(",qAC*,X*");
    let packet = read(&line);
    assert!(packet.via.iter().all(|via| via.callsign().is_some()));
    assert_eq!(written(&packet), Ok(line_via(",qAC,X*")));
    let back = line_via(",qAC,X*");
    assert_eq!(read(&back).via[0], Via::QConstruct(QConstruct::AC));
    let last = line_via(",X,qAC*");
    assert_eq!(written(&read(&last)), Ok(last.clone()));
    let address = b"\xb0@@@@@\xe0\xa2\x82\x86@@@\xe1";
    assert_eq!(framed(&read(&last)), Ok(frame_via(SOURCE, address)));
}

/// "in a frame it is left out": the last callsign left is marked last, or the source.
#[test]
fn a_frame_is_written_without_q_elements() {
    let cases: [(&str, &[u8], &[u8]); 6] = [
        (",qAC,qAX,qAU,qAo,qAO,qAS,qAr,qAR", LAST_SOURCE, b""),
        (",C*,qAC", SOURCE, b"\x86@@@@@\xe1"),
        (",qAC,C", SOURCE, b"\x86@@@@@\x61"),
        (",C*,qAC,D", SOURCE, b"\x86@@@@@\xe0\x88@@@@@\x61"),
        (",qAC,C,qAR,D*,qAI", SOURCE, b"\x86@@@@@\xe0\x88@@@@@\xe1"),
        (",C,D*", SOURCE, b"\x86@@@@@\xe0\x88@@@@@\xe1"),
    ];
    for (hops, source, addresses) in cases {
        let line = line_via(hops);
        let frame = frame_via(source, addresses);
        assert_eq!(framed(&read(&line)), Ok(frame.clone()));
        let back = AprsPacket::decode_ax25(&frame).unwrap();
        let packet = read(&line);
        let callsigns = packet.via.iter().filter(|via| via.callsign().is_some());
        assert!(back.via.iter().eq(callsigns));
    }
    let seven = line_via(",qAC,ABCDEFG");
    assert_eq!(framed(&read(&seven)), Err(Refusal::NotAx25));
}

/// A digit for the source, one for the destination, one for each hop that is a callsign: 1 where it is marked; `-` for no
/// destination.
fn marks(packet: &AprsPacket<'_>) -> String {
    let hops = packet.via.iter().filter_map(Via::callsign);
    let callsigns = [Some(&packet.from), packet.to()]
        .into_iter()
        .chain(hops.map(|(callsign, _)| Some(callsign)));
    let mark = |callsign: Option<&Callsign>| match callsign.map(Callsign::had_zero_ssid) {
        Some(true) => '1',
        Some(false) => '0',
        None => '-',
    };
    callsigns.map(mark).collect()
}

/// Document 02's R-2.
#[test]
fn a_dropped_zero_is_marked_where_it_stood() {
    let cases: [(&[u8], &str); 10] = [
        (b"A-0>B-0,C-0,D-0*,E-0:!0000.00N/00000.00E-", "11111"),
        (b"A-0>B,qAC,C-0,qAC-0,qAR:", "1011"),
        (b"A-0>B,C,D:", "1000"),
        (b"A>B-0,C,D:", "0100"),
        (b"A>B,C-0,D:", "0010"),
        (b"A>B,C,D-0*:", "0001"),
        (b"A>B,1,2,3,4,5,6,7,8-0:", "0000000001"),
        (b"A-00>B-0-0,C-+0,D-01,E:", "00000"),
        (b"A-0>S32U6T-0,B-0,C:`(_fn\"Oj/", "1-10"),
        (b"A>S32U6T-0:`(_fn\"Oj/", "0-"),
    ];
    for (line, expected) in cases {
        assert_eq!(marks(&read(line)), expected, "{line:?}");
    }
}

#[test]
fn marks_are_not_written_and_not_compared() {
    let cases: [(&[u8], &[u8], &str); 2] = [
        (
            b"A-0>B-0,C-0,D-0*:!0000.00N/00000.00E-",
            b"A>B,C,D*:!0000.00N/00000.00E-",
            "0000",
        ),
        (
            b"A-0>S32U6T-0,B-0*:`(_fn\"Oj/",
            b"A>S32U6T,B*:`(_fn\"Oj/",
            "0-0",
        ),
    ];
    for (line, plain, none) in cases {
        assert_eq!(read(line), read(plain));
        assert_eq!(written(&read(line)), Ok(plain.to_vec()));
        assert_eq!(marks(&read(plain)), none);
        let frames = [line, plain].map(|line| {
            let mut frame = Vec::new();
            read(line).encode_ax25(&mut frame).map(|()| frame).unwrap()
        });
        assert_eq!(frames[0], frames[1]);
        assert_eq!(marks(&AprsPacket::decode_ax25(&frames[0]).unwrap()), none);
    }
}

#[test]
fn a_vector_keeps_what_it_has() {
    let mut out = b"first\n".to_vec();
    read(LINE).encode_textual(&mut out).unwrap();
    assert_eq!(out, [b"first\n", LINE].concat());
    let before = out.clone();
    assert_eq!(
        read(b"A>B:hi").encode_textual(&mut out),
        Err(Refusal::UnknownKind)
    );
    assert_eq!(
        read(b"A>B:hi").encode_ax25(&mut out),
        Err(Refusal::UnknownKind)
    );
    assert_eq!(out, before);
}

#[test]
fn a_frame_goes_out_and_comes_back() {
    let packet = read(b"N0CALL-1>APRS,N0CALL-1*:!4903.50N/07201.75W-Test");
    let mut frame = vec![0xc0];
    packet.encode_ax25(&mut frame).unwrap();
    assert_eq!(&frame[15..24], b"\x9c\x60\x86\x82\x98\x98\xe3\x03\xf0");
    assert_eq!(AprsPacket::decode_ax25(&frame[1..]), Ok(packet.clone()));
    let mut room = [0; MOST_BYTES];
    assert_eq!(packet.encode_ax25_to_slice(&mut room), Ok(&frame[1..]));
}

#[test]
fn a_packet_may_be_changed_by_its_fields() {
    let mut packet = read(LINE);
    packet.from = Callsign::new("K1A").unwrap();
    packet.via[2] = Via::Callsign(packet.from, true);
    if let AprsData::Position(position) = &mut packet.data {
        position.timestamp = Some(Timestamp::DDHHMM(1, 2, 3));
        position.messaging_supported = true;
        position.comment = b"";
    }
    let expected = b"K1A>APRS,WIDE1-1,WIDE2-2,K1A*:@010203z4903.50N/07201.75W-";
    assert_eq!(written(&packet), Ok(expected.to_vec()));
}

#[test]
fn every_refusal_of_a_line() {
    let mut long = [b'x'; 513];
    long[..4].copy_from_slice(b"A>B:");
    let lines: [&[u8]; 12] = [
        &long,
        b"A>B",
        b"A->B:",
        b"ABCDEFGHIJKLMNO-0>B:",
        b"A>B,1,2,3,4,5,6,7,8,:",
        b"A>B,qAc:",
        b"A>B:!/5L!!<*e7>7P[",
        b"A>B:!9000.01N/00000.00E-",
        b"A>B:!0000.00N/000 0.00E-",
        b"A>B:!4903.50N/",
        b"A>LLLLLL:`(_fn\"Oj/",
        b"A>S32U6T:`(_fn\"Oj",
    ];
    assert!(lines.iter().map(|line| refusal(line)).eq(1..=12));
    assert_eq!(refusal(b"A>B:/000000z4903.50N/07201.75W>"), 17);
    assert_eq!(refusal(b"A>B::WU2Z     "), 18);
    assert_eq!(refusal(b"A>B:}C>D:}E>F:}G>H:}I>J:}"), 19);
    assert_eq!(refusal(&long[..512]), 0);
}

#[test]
fn every_refusal_of_a_writer() {
    let mut out = [0xaa; MOST_BYTES];
    let seven = read(b"ABCDEFG>B:!0000.00N/00000.00E-");
    assert_eq!(seven.encode_ax25_to_slice(&mut out), Err(Refusal::NotAx25));
    let unknown = read(b"A>B:hi");
    assert_eq!(
        unknown.encode_textual_to_slice(&mut out),
        Err(Refusal::UnknownKind)
    );
    let mut packet = read(LINE);
    let long = [b'x'; MOST_BYTES];
    if let AprsData::Position(position) = &mut packet.data {
        position.comment = &long;
    }
    assert_eq!(
        packet.encode_textual_to_slice(&mut out),
        Err(Refusal::TooLong)
    );
    if let AprsData::Position(position) = &mut packet.data {
        position.symbol_code = 128;
    }
    assert_eq!(
        packet.encode_textual_to_slice(&mut out),
        Err(Refusal::OutOfRange)
    );
    let needed = LINE.len();
    let short = read(LINE).encode_textual_to_slice(&mut out[..needed - 1]);
    assert_eq!(short, Err(Refusal::NoRoom { needed }));
    assert!(out.iter().all(|byte| *byte == 0xaa));
}

#[test]
fn a_packet_may_go_to_another_thread() {
    fn may<T: Send + Sync>(packet: T) -> T {
        packet
    }
    assert_eq!(may(read(LINE)), read(LINE));
}

type Found<'a> = Result<AprsPacket<'a>, Refusal>;

/// What is usually read is strictly the same, or refused with a number of document 02's R-8; what is usually refused is
/// refused.
fn is_judged_strictly(usually: &Found<'_>, strictly: &Found<'_>) -> bool {
    match (usually, strictly) {
        (Ok(usual), Ok(strict)) => usual == strict,
        (Ok(_), Err(strict)) => matches!(strict.number(), 8 | 9 | 11 | 20),
        (Err(usual), Err(strict)) => {
            usual == strict || matches!((usual.number(), strict.number()), (9, 8) | (12, 11))
        }
        (Err(_), Ok(_)) => false,
    }
}

/// Lines of this file's own, spoilt: each is refused, or comes back from a slice as from a vector.
#[test]
fn spoilt_lines_do_no_harm() {
    let mut state = 1u32;
    let mut random = move |below: usize| {
        state = state.wrapping_mul(1_664_525).wrapping_add(1_013_904_223);
        (state >> 8) as usize % below
    };
    let (mut accepted, mut refused, mut mistimed, mut malformed) = (0, 0, 0, 0);
    let (mut inside, mut from_feed, mut misnamed, mut stopped) = (0, 0, 0, 0);
    for _ in 0..20_000 {
        let mut line = [LINE, MIC_E, TIMED, MESSAGE, STATUS, INNER, FEED][random(7)].to_vec();
        for _ in 0..1 + random(3) {
            let at = random(line.len());
            line[at] = [random(256) as u8, b":>,*-!/h 09{|~}qA"[random(17)]][random(2)];
        }
        line.truncate(1 + random(2 * line.len()));
        let mut room = [0; MOST_BYTES];
        let usually = AprsPacket::decode_textual(&line);
        let strictly = AprsPacket::decode_textual_strictly(&line);
        assert!(is_judged_strictly(&usually, &strictly), "{line:?}");
        stopped += usize::from(usually.is_ok() && strictly.is_err());
        match usually {
            Ok(packet) => {
                let slice = packet
                    .encode_textual_to_slice(&mut room)
                    .map(<[u8]>::to_vec);
                assert_eq!(slice, written(&packet));
                assert!(packet.inner().is_none() || slice.is_err());
                inside += usize::from(packet.inner().is_some());
                from_feed += usize::from(packet.via.iter().any(|via| via.callsign().is_none()));
                accepted += 1;
            }
            Err(refusal) => {
                assert!(matches!(refusal.number(), 1..=12 | 17..=19));
                mistimed += usize::from(refusal == Refusal::Time);
                malformed += usize::from(refusal == Refusal::Malformed);
                misnamed += usize::from(refusal == Refusal::QElement);
                refused += 1;
            }
        }
    }
    assert!(accepted > 1_000 && refused > 1_000, "{accepted} {refused}");
    assert!(mistimed > 100 && malformed > 100, "{mistimed} {malformed}");
    assert!(inside > 100 && stopped > 100, "{inside} {stopped}");
    assert!(from_feed > 100 && misnamed > 10, "{from_feed} {misnamed}");
}
