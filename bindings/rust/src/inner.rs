// The packets inside a packet: the innermost header, and how many there are.

use crate::callsign::Callsign;
use crate::via::Path;

/// The innermost header of a packet with others inside it, and how many there are: what
/// [`AprsPacket::inner`](crate::AprsPacket::inner) gives.
#[derive(Clone, Copy, Debug, PartialEq, Eq)]
#[non_exhaustive]
pub struct Inner<'p> {
    /// How many packets are inside, 1 to [`MOST_INNER`](crate::MOST_INNER).
    pub number: u8,
    /// The source of the innermost.
    pub from: &'p Callsign,
    /// Its destination; a Mic-E report has none.
    pub to: Option<&'p Callsign>,
    /// Its hops.
    pub via: &'p Path,
}

/// What a packet with others inside it has beside its source and its hops: its destination, since that of its data is the
/// innermost packet's, and the innermost header.
#[derive(Clone, Debug, PartialEq, Eq)]
pub struct Around {
    pub to: Callsign,
    pub number: u8,
    pub from: Callsign,
    pub via: Path,
}

#[cfg(test)]
mod tests {
    use crate::*;

    const POINT: &[u8] = b"C>D:!0000.01N/00000.02E-Hi";

    fn read(line: &[u8]) -> AprsPacket<'_> {
        AprsPacket::decode_textual(line).unwrap()
    }

    /// The packet inside so many others, in the body of A>B.
    fn inside(packet: &[u8], number: usize) -> Vec<u8> {
        [b"A>B:}", &b"E>F:}".repeat(number - 1)[..], packet].concat()
    }

    /// The same in a frame.
    fn framed(packet: &[u8], number: usize) -> Vec<u8> {
        let header = b"\x84@@@@@\xe0\x82@@@@@\x61\x03\xf0";
        [header, &inside(packet, number)[4..]].concat()
    }

    /// A hop as it was typed; a Q element in brackets.
    fn typed_hop(via: &Via) -> String {
        match via {
            Via::Callsign(hop, true) => format!(",{}*", hop.typed_text()),
            Via::Callsign(hop, false) => format!(",{}", hop.typed_text()),
            Via::QConstruct(q) => format!(",[{q}]"),
        }
    }

    /// A header as it was typed.
    fn typed(from: &Callsign, to: Option<&Callsign>, via: &Path) -> String {
        let to = to.map_or_else(|| "-".to_string(), Callsign::typed_text);
        let hops: String = via.iter().map(typed_hop).collect();
        format!("{}>{to}{hops}", from.typed_text())
    }

    fn outer(packet: &AprsPacket<'_>) -> String {
        typed(&packet.from, packet.to(), &packet.via)
    }

    fn inner(packet: &AprsPacket<'_>) -> Option<(u8, String)> {
        let inner = packet.inner()?;
        Some((inner.number, typed(inner.from, inner.to, inner.via)))
    }

    #[test]
    fn up_to_four_packets_inside_are_read() {
        assert_eq!(
            (read(POINT).inner(), outer(&read(POINT))),
            (None, "C>D".to_string())
        );
        for number in 1..=4 {
            let (line, frame) = (inside(POINT, number), framed(POINT, number));
            for packet in [read(&line), AprsPacket::decode_ax25(&frame).unwrap()] {
                assert_eq!(outer(&packet), "A>B");
                assert_eq!(inner(&packet), Some((number as u8, "C>D".to_string())));
                assert_eq!(packet.comment(), b"Hi");
                assert_eq!(packet.innermost(), read(POINT));
            }
        }
        for number in [5, 6, 50] {
            let (line, frame) = (inside(POINT, number), framed(POINT, number));
            assert_eq!(
                AprsPacket::decode_textual(&line),
                Err(Refusal::TooManyInner)
            );
            assert_eq!(AprsPacket::decode_ax25(&frame), Err(Refusal::TooManyInner));
        }
    }

    /// "An inner body is judged by the same rules as an outer one."
    #[test]
    fn a_packet_is_the_same_inside_another() {
        for line in [
            POINT,
            b"C>D:",
            b"C>D:x}",
            b"C-0>D-0,E-0,F*,G:=49  .  S/072  .  W-",
            b"C>D:@092345/4903.50N/07201.75W>Test1234",
            b"C-0>S32U6T-0,E*:`(_fn\"Oj/Comment",
            b"C>D,1,2,3,4,5,6,7,8::WU2Z     :Testing{003",
            b"C>D:>092345zNet Control Center",
            b"C>D,TCPIP*,qAC,T2TEXAS:>hi",
            b"C>D,qAC,E-0,qAR*,qAo:>hi",
            b">:>",
        ] {
            for number in 1..=4 {
                let around = inside(line, number);
                let packet = read(&around);
                let alone = read(line);
                assert_eq!(
                    (packet.innermost(), packet.innermost().inner()),
                    (alone.clone(), None)
                );
                assert_eq!(inner(&packet), Some((number as u8, outer(&alone))));
                assert_eq!(
                    (&packet.data, packet.comment()),
                    (&alone.data, alone.comment())
                );
            }
        }
    }

    #[test]
    fn headers_are_as_they_were_typed() {
        let cases: [(&[u8], &str, u8, &str); 7] = [
            (b"A-0>B-0,X-0,Y*,Z:}C>D:>hi", "A-0>B-0,X-0*,Y*,Z", 1, "C>D"),
            (
                b"A>B:}C-0>D-01,E,F-0*,G:>hi",
                "A>B",
                1,
                "C-0>D-01,E*,F-0*,G",
            ),
            (b"A>B:}X-0>Y,Z*:}C>D:>hi", "A>B", 2, "C>D"),
            (b"A>B-0:}C>S32U6T-0,E:`(_fn\"Oj/", "A>B-0", 1, "C>-,E"),
            (b"A>S32U6T:}}C>D:", "A>S32U6T", 1, "}C>D"),
            (
                b"A>B,X,qAC,Y*,qAR:}C>D,qAo,E,qAC*,qAO,F:>hi",
                "A>B,X*,[qAC],Y*,[qAR]",
                1,
                "C>D,[qAo],E*,qAC*,[qAO],F",
            ),
            (b"A>B:}X>Y,qAC,Z*:}C>D,qAI:>hi", "A>B", 2, "C>D,[qAI]"),
        ];
        for (line, outermost, number, innermost) in cases {
            let packet = read(line);
            assert_eq!(outer(&packet), outermost);
            assert_eq!(inner(&packet), Some((number, innermost.to_string())));
        }
    }

    /// It reads the innermost destination, whatever the outermost is.
    #[test]
    fn a_mic_e_report_inside_leaves_the_outermost_its_destination() {
        let packet = read(b"A>LLLLLL:}C>S32U6T:`(_fn\"Oj/");
        let report = match packet.data {
            AprsData::MicE(report) => report,
            _ => panic!("{packet:?}"),
        };
        assert_eq!(
            (report.latitude.hundredths(), report.longitude.hundredths()),
            (200564, -72774)
        );
        assert_eq!(packet.to().map(Callsign::as_str), Some("LLLLLL"));
        assert_eq!((packet.data.to(), packet.inner().unwrap().to), (None, None));
        assert_eq!(
            AprsPacket::decode_textual(b"A>S32U6T:}C>LLLLLL:`(_fn\"Oj/"),
            Err(Refusal::MicEDestination)
        );
    }

    /// "inner faults keep their numbers"; a fifth is found before its header is read.
    #[test]
    fn a_fault_inside_has_its_number() {
        let cases: [(&[u8], u8); 18] = [
            (b"", 2),
            (b"C>D", 2),
            (b"C->D:", 3),
            (b"ABCDEFGHIJKLMNOPQ>D:", 4),
            (b"C>D,1,2,3,4,5,6,7,8,9:", 5),
            (b"C>D,1,2,3,4,5,6,7,8,qAC:", 5),
            (b"C>D,qAc:", 6),
            (b"C>D,qAC,qA*:", 6),
            (b"C>D:!/5L!!<*e7>7P[", 7),
            (b"C>D:!9000.01N/00000.00E-", 8),
            (b"C>D:!9000.00N/18000.01E-", 9),
            (b"C>D:!9000.00N/", 10),
            (b"C>LLLLLL:`(_fn\"Oj/", 11),
            (b"C>S32U6T:`(_fn\"Oj", 12),
            (b"C>D:/000000z4903.50N/07201.75W>", 17),
            (b"C>D::WU2Z", 18),
            (b"C->D:}E>F,qAc:", 3),
            (b"C>D,qAc:}", 6),
        ];
        let number =
            |found: Result<AprsPacket<'_>, Refusal>| found.map_or_else(Refusal::number, |_| 0);
        for (packet, expected) in cases {
            for around in 1..=5 {
                let expected = if around == 5 { 19 } else { expected };
                assert_eq!(
                    number(AprsPacket::decode_textual(&inside(packet, around))),
                    expected
                );
                assert_eq!(
                    number(AprsPacket::decode_ax25(&framed(packet, around))),
                    expected
                );
            }
        }
        assert_eq!(number(AprsPacket::decode_textual(b"A->B:}C>D,qAc:")), 3);
    }

    #[test]
    fn a_packet_with_others_inside_is_not_written_but_the_innermost_is() {
        let mut out = [0xaa; MOST_BYTES];
        for line in [
            POINT,
            b"C>D,E*::WU2Z     :Testing{003",
            b"C>D,E,qAC,F*,qAR,G:>hi",
            b"C>S32U6T:`(_fn\"Oj/Comment",
        ] {
            let around = inside(line, 2);
            let packet = read(&around);
            let refused = Err(Refusal::UnknownKind);
            assert_eq!(packet.encode_textual_to_slice(&mut out), refused);
            assert_eq!(packet.encode_ax25_to_slice(&mut out), refused);
            let mut innermost = Vec::new();
            packet.innermost().encode_textual(&mut innermost).unwrap();
            assert_eq!(innermost, line);
        }
        let symbol = inside(b"C>D:!0000.00N\x8000000.00E-", 1);
        let out_of_range = Err(Refusal::OutOfRange);
        assert_eq!(
            read(&symbol).encode_textual_to_slice(&mut out),
            out_of_range
        );
        let mut packet = read(b"A>B:}C>D:>hi");
        packet.data = read(b"C>S32U6T:`(_fn\"Oj/").data;
        assert_eq!(
            packet.encode_textual_to_slice(&mut out),
            Err(Refusal::UnknownKind)
        );
        assert!(out.iter().all(|byte| *byte == 0xaa));
    }

    /// What the two writers refuse a record with that was read and then changed.
    fn refusals(line: &[u8], change: impl Fn(&mut ffi::Record)) -> [u8; 2] {
        // SAFETY: the pointer and the length are those of one slice.
        let mut record = unsafe { ffi::tusselgro_read_text(line.as_ptr(), line.len()) }.record;
        change(&mut record);
        let mut out = [0xaa; MOST_BYTES];
        [ffi::tusselgro_write_text, ffi::tusselgro_write_frame].map(|writer| {
            let none = std::ptr::NonNull::dangling().as_ptr();
            // SAFETY: a length of 0 may go with any pointer, and the buffer is lent to nobody else.
            let answer = unsafe { writer(record, none, 0, none, 0, out.as_mut_ptr(), out.len()) };
            assert!(out[answer.reported..].iter().all(|byte| *byte == 0xaa));
            answer.refusal
        })
    }

    /// 15 comes before 14: a number above 4, and at 0 an innermost header that is not blank, but for its marks.
    #[test]
    fn a_record_made_by_hand_is_judged_with_its_innermost_header() {
        let header = read_header(b"C>D:");
        for number in 1..=255 {
            let expected = if number <= 4 { 14 } else { 15 };
            assert_eq!(
                refusals(POINT, |record| record.inner = number),
                [expected; 2]
            );
            assert_eq!(
                refusals(POINT, |record| {
                    record.inner = number;
                    record.innermost = header;
                }),
                [expected; 2]
            );
        }
        assert_eq!(refusals(POINT, |record| record.innermost = header), [15; 2]);
        assert_eq!(
            refusals(POINT, |record| record.innermost.path.count = 1),
            [15; 2]
        );
        assert_eq!(
            refusals(POINT, |record| record.innermost.to.ssid_len = 1),
            [15; 2]
        );
        assert_eq!(
            refusals(POINT, |record| record.innermost.path.hops[7].kind = 1),
            [15; 2]
        );
        assert_eq!(
            refusals(POINT, |record| record.innermost.from.had_zero_ssid = true),
            [0; 2]
        );
        let hops = b"A>B,C,qAC:}D>E,qAR,F*:>hi";
        assert_eq!(refusals(hops, |_| ()), [14; 2]);
        for kind in 0..=255 {
            let expected = if kind <= 2 { 14 } else { 15 };
            assert_eq!(
                refusals(hops, |record| record.header.path.hops[1].kind = kind),
                [expected; 2]
            );
            assert_eq!(
                refusals(hops, |record| record.innermost.path.hops[0].kind = kind),
                [expected; 2]
            );
        }
        let mic_e = b"A>B:}C>S32U6T:`(_fn\"Oj/";
        assert_eq!(refusals(mic_e, |_| ()), [14; 2]);
        assert_eq!(
            refusals(mic_e, |record| record.header.to = Default::default()),
            [14; 2]
        );
        assert_eq!(
            refusals(mic_e, |record| record.innermost.to = header.to),
            [15; 2]
        );
        assert_eq!(refusals(mic_e, |record| record.inner = 0), [15; 2]);
    }

    fn read_header(line: &[u8]) -> ffi::Header {
        // SAFETY: the pointer and the length are those of one slice.
        unsafe { ffi::tusselgro_read_text(line.as_ptr(), line.len()) }
            .record
            .header
    }
}
