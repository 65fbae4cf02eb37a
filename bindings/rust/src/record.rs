// A packet as the C record of it, and back.

use crate::callsign::Callsign;
use crate::ffi;
use crate::inner::Around;
use crate::message::{Addressee, AprsMessage};
use crate::mic_e::{AprsMicE, Course, Message, Speed};
use crate::packet::{AprsData, AprsPacket};
use crate::place::{angles_of, place_of};
use crate::position::AprsPosition;
use crate::precision::Precision;
use crate::refusal::Refusal;
use crate::status::AprsStatus;
use crate::timestamp::Timestamp;
use crate::via::{Path, Via};

/// The packet of a record that was read from `bytes`.
pub fn packet_of<'a>(record: &ffi::Record, bytes: &'a [u8]) -> Result<AprsPacket<'a>, Refusal> {
    let ffi::Record { header, body, .. } = record;
    let comment = part_of(bytes, body.comment)?;
    let identifier = part_of(bytes, body.identifier)?;
    let around = around_of(record)?;
    let to = Callsign::of(match around {
        Some(_) => record.innermost.to,
        None => header.to,
    });
    let data = match body.kind {
        ffi::POSITION => position_of(body, to, comment)?.into(),
        ffi::MIC_E => mic_e_of(&body.place, &body.report, comment)?.into(),
        ffi::MESSAGE => message_of(body, to, comment, identifier).into(),
        ffi::STATUS => AprsStatus::new(to, Timestamp::of(body.time)?, comment).into(),
        _ => AprsData::Unknown(to),
    };
    Ok(AprsPacket {
        from: Callsign::of(header.from),
        via: path_of(&header.path)?,
        data,
        around,
    })
}

/// Nothing where there is no packet inside.
fn around_of(record: &ffi::Record) -> Result<Option<Around>, Refusal> {
    if record.inner == 0 {
        return Ok(None);
    }
    Ok(Some(Around {
        to: Callsign::of(record.header.to),
        number: record.inner,
        from: Callsign::of(record.innermost.from),
        via: path_of(&record.innermost.path)?,
    }))
}

fn part_of(bytes: &[u8], span: ffi::Span) -> Result<&[u8], Refusal> {
    let part = bytes.get(span.at..).and_then(|rest| rest.get(..span.len));
    part.ok_or(Refusal::OutOfRange)
}

fn path_of(path: &ffi::Path) -> Result<Path, Refusal> {
    let mut via = Path::new();
    for hop in path.hops.iter().take(path.count) {
        via.push(Via::of(hop)?)?;
    }
    Ok(via)
}

fn position_of<'a>(
    body: &ffi::Body,
    to: Callsign,
    comment: &'a [u8],
) -> Result<AprsPosition<'a>, Refusal> {
    let mut found = AprsPosition::of(&body.place, to)?;
    found.timestamp = Timestamp::of(body.time)?;
    found.messaging_supported = body.messaging;
    found.comment = comment;
    Ok(found)
}

fn mic_e_of<'a>(
    place: &ffi::Place,
    report: &ffi::Report,
    comment: &'a [u8],
) -> Result<AprsMicE<'a>, Refusal> {
    let (latitude, longitude) = angles_of(place)?;
    let mut found = AprsMicE::new(latitude, longitude);
    found.precision = Precision::try_from(place.blanks)?;
    found.message = Message::try_from(report.message)?;
    found.speed = Speed::new(report.speed)?;
    found.course = Course::new(report.course)?;
    found.symbol_table = place.table;
    found.symbol_code = place.code;
    found.comment = comment;
    found.current = report.current;
    Ok(found)
}

fn message_of<'a>(
    body: &ffi::Body,
    to: Callsign,
    text: &'a [u8],
    identifier: &'a [u8],
) -> AprsMessage<'a> {
    let mut found = AprsMessage::new(to, Addressee::of(body.addressee), text);
    found.id = Some(identifier).filter(|identifier| !identifier.is_empty());
    found
}

/// The record of a packet, without the places of its comment and its identifier.
pub fn record_of(packet: &AprsPacket<'_>) -> ffi::Record {
    let header = header_record(&packet.from, packet.to(), &packet.via);
    let inner = packet.inner();
    let innermost = inner.map(|inner| header_record(inner.from, inner.to, inner.via));
    let body = match &packet.data {
        AprsData::Position(position) => position_body(position),
        AprsData::Message(message) => message_body(message),
        AprsData::Status(status) => status_body(status),
        AprsData::MicE(report) => mic_e_body(report),
        AprsData::Unknown(_) => ffi::Body::default(),
    };
    ffi::Record {
        header,
        body,
        innermost: innermost.unwrap_or_default(),
        inner: inner.map_or(0, |inner| inner.number),
    }
}

fn header_record(from: &Callsign, to: Option<&Callsign>, via: &Path) -> ffi::Header {
    ffi::Header {
        from: from.raw(),
        to: to.map(Callsign::raw).unwrap_or_default(),
        path: path_record(via),
    }
}

fn path_record(via: &Path) -> ffi::Path {
    let mut path = ffi::Path {
        count: via.len(),
        ..Default::default()
    };
    for (place, hop) in path.hops.iter_mut().zip(via) {
        *place = hop.raw();
    }
    path
}

fn position_body(position: &AprsPosition<'_>) -> ffi::Body {
    ffi::Body {
        place: position.place(),
        time: position.timestamp.map(Timestamp::raw).unwrap_or_default(),
        messaging: position.messaging_supported,
        kind: ffi::POSITION,
        ..Default::default()
    }
}

fn message_body(message: &AprsMessage<'_>) -> ffi::Body {
    ffi::Body {
        addressee: *message.addressee.padded(),
        kind: ffi::MESSAGE,
        ..Default::default()
    }
}

fn status_body(status: &AprsStatus<'_>) -> ffi::Body {
    ffi::Body {
        time: status.time(),
        kind: ffi::STATUS,
        ..Default::default()
    }
}

fn mic_e_body(found: &AprsMicE<'_>) -> ffi::Body {
    let angles = (found.latitude, found.longitude);
    let symbol = (found.symbol_table, found.symbol_code);
    let report = ffi::Report {
        speed: found.speed.knots(),
        course: found.course.degrees(),
        message: found.message.number(),
        current: found.current,
    };
    ffi::Body {
        place: place_of(angles, found.precision, symbol),
        report,
        kind: ffi::MIC_E,
        ..Default::default()
    }
}

#[cfg(test)]
mod tests {
    use super::*;

    fn read(line: &[u8]) -> ffi::Record {
        // SAFETY: the pointer and the length are those of one slice.
        unsafe { ffi::tusselgro_read_text(line.as_ptr(), line.len()) }.record
    }

    /// The marks, which equality does not look at: those of the source, the destination and all hops.
    fn marks(record: &ffi::Record) -> Vec<bool> {
        let ffi::Header { from, to, path } = &record.header;
        let hops = path.hops.iter().map(|hop| &hop.call);
        let callsigns = [from, to].into_iter().chain(hops);
        callsigns.map(|callsign| callsign.had_zero_ssid).collect()
    }

    #[test]
    fn a_record_comes_back_but_for_its_places() {
        for line in [
            &b"N0CALL-01>APRS,WIDE1-1,WIDE2-2*,K1A:!4903.50N/07201.75W-Test"[..],
            b"A>B,1,2,3,4,5,6,7,8*:=49  .  S/072  .  W-",
            b"A>S32UVT:`(_fn\"Oj/Comment",
            b"A>S32UVT:'(_fn\"Oj/",
            b"A>B:!0000.00S/00000.00W-",
            b"A>B:!0000.00N/00000.00W-",
            b"A>B:/092345z4903.50N/07201.75W>Test1234",
            b"A>B:@092345/4903.50N/07201.75W>Test1234",
            b"A>B:@000000h4903.50N/07201.75W>",
            b"A>0LLLLL:`vX\x1cn\"Oj/",
            b"A>B-7:hi",
            b"A>B-7::WU2Z     :Testing{003",
            b"A>B::\0\0\0\0\0\0\0\0\0:",
            b"A-0>B-0::::: : :: :x",
            b"A>B-7:>Net Control Center",
            b"A>S32UVT,C-0*:>092345z",
            b"A-0>B-0,C,D-0*:!0000.00N/00000.00E-",
            b"A-0>S32UVT-0,B-0:`(_fn\"Oj/",
            b"A-0>B-0,C,D-0*:}E-0>F,G-0*:}H-0>I-0,J,K-0*:!0000.00N/00000.00E-",
            b"A-0>B-0:}C-0>S32UVT-0,D-0:`(_fn\"Oj/",
            b"A>B:}C>D:}E>F:}G>H:}I-7>J-8:",
            b"A>B:}>:",
            b"N0CALL>APRS,TCPIP*,qAC,T2TEXAS:>hi",
            b"A>B,qAC,C-0,qAr*,qAo,D,qAC-0*:>hi",
            b"A>B,qAC,qAX,qAU,qAo,qAO,qAS,qAr,qAR:!0000.00N/00000.00E-",
            b"A>B,C,qAZ:}D>E,qAI,F*:}G>S32UVT,qAR,qAR*,qAR:`(_fn\"Oj/",
        ] {
            let mut record = read(line);
            let packet = packet_of(&record, line).unwrap();
            record.body.comment = ffi::Span::default();
            record.body.identifier = ffi::Span::default();
            assert_eq!(record_of(&packet), record);
            assert_eq!(marks(&record_of(&packet)), marks(&record));
        }
    }

    /// Each of these is in a record that nobody read.
    #[test]
    fn a_record_made_by_hand_is_refused_and_does_not_trap() {
        let line = b"A>S32UVT,B:`(_fn\"Oj/Comment";
        let spoilt: [fn(&mut ffi::Record); 12] = [
            |record| record.body.comment.at = usize::MAX,
            |record| record.body.comment.len = usize::MAX,
            |record| record.body.identifier.at = usize::MAX,
            |record| record.body.identifier.len = usize::MAX,
            |record| {
                record.body.place.latitude = i32::MIN;
                record.body.place.south = true;
            },
            |record| {
                record.body.place.longitude = i32::MAX;
                record.body.place.west = false;
            },
            |record| record.body.place.south = true,
            |record| record.body.place.west = false,
            |record| record.body.place.blanks = 6,
            |record| record.body.report.message = 16,
            |record| record.body.report.speed = u32::MAX,
            |record| record.body.report.course = 361,
        ];
        for spoil in spoilt {
            let mut record = read(line);
            assert!(packet_of(&record, line).is_ok());
            spoil(&mut record);
            assert_eq!(packet_of(&record, line), Err(Refusal::OutOfRange));
        }
        let line = b"A>B:/092345z4903.50N/07201.75W>";
        let mut record = read(line);
        record.body.time.second = 1;
        assert_eq!(packet_of(&record, line), Err(Refusal::OutOfRange));
        let mut record = read(line);
        record.header.path.count = usize::MAX;
        record.header.from.call_len = u8::MAX;
        let packet = packet_of(&record, line).unwrap();
        assert_eq!((packet.via.len(), packet.from.as_str()), (8, ""));
        assert_eq!(
            packet.encode_textual(&mut Vec::new()),
            Err(Refusal::OutOfRange)
        );
    }

    /// Of the outermost path and of the innermost. A kind past the count is not looked at.
    #[test]
    fn a_hop_made_by_hand_is_refused_and_does_not_trap() {
        let line = b"A>B,C*,qAC:}D>E,qAR,F:>hi";
        let spoilt: [fn(&mut ffi::Record); 9] = [
            |record| record.header.path.hops[0].kind = 2,
            |record| record.header.path.hops[0].kind = 3,
            |record| record.header.path.hops[1].kind = 255,
            |record| record.header.path.hops[1].call.text[2] = b'c',
            |record| record.header.path.hops[1].call.ssid_len = 255,
            |record| record.header.path.hops[1].call.call_len = 255,
            |record| record.innermost.path.hops[0].kind = 3,
            |record| record.innermost.path.hops[0].call.text[15] = 1,
            |record| record.innermost.path.hops[1].kind = 2,
        ];
        for spoil in spoilt {
            let mut record = read(line);
            assert!(packet_of(&record, line).is_ok());
            spoil(&mut record);
            assert_eq!(packet_of(&record, line), Err(Refusal::OutOfRange));
        }
        let mut record = read(line);
        record.header.path.hops[2].kind = 255;
        assert_eq!(packet_of(&record, line), AprsPacket::decode_textual(line));
    }
}
