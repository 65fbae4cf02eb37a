// Strict decoding against document 02's R-8: the numbers are by hand.

use crate::*;

/// From A to B, with hops that are marked and heard.
const LINE: &[u8] = b"A-0>B,C-0,qAR,D*:=49  .  S\\072  .  W_Test";

fn number(read: &Result<AprsPacket<'_>, Refusal>) -> u8 {
    read.as_ref().map_or_else(|refusal| refusal.number(), |_| 0)
}

/// A line from A to that destination with that body, and the packet inside so many others.
fn line(to: &str, body: &[u8], inner: usize) -> Vec<u8> {
    let around = b"E>S36P6T:}".repeat(inner);
    [&around[..], b"A>", to.as_bytes(), b":", body].concat()
}

/// The same in a frame, whose own header is the outermost.
fn frame(to: &str, body: &[u8], inner: usize) -> Vec<u8> {
    let text = line(to, body, inner);
    let outermost = if inner == 0 { to } else { "S36P6T" };
    let mut header: Vec<u8> = format!("{outermost:<6}").bytes().map(|b| b << 1).collect();
    header.extend(b"\xe0\x82@@@@@\x61\x03\xf0");
    let start = text.iter().position(|byte| *byte == b':').unwrap() + 1;
    [&header, &text[start..]].concat()
}

/// As a line and as a frame, by itself and inside one to four others: the usual answer, and the strict one.
fn judges(to: &str, body: &[u8], usual: u8, strict: u8) {
    for inner in 0..=4 {
        let (line, frame) = (line(to, body, inner), frame(to, body, inner));
        for (usually, strictly) in [
            (
                AprsPacket::decode_textual(&line),
                AprsPacket::decode_textual_strictly(&line),
            ),
            (
                AprsPacket::decode_ax25(&frame),
                AprsPacket::decode_ax25_strictly(&frame),
            ),
        ] {
            let told = format!("{} {inner}", line.escape_ascii());
            let numbers = (number(&usually), number(&strictly));
            assert_eq!(numbers, (usual, strict), "{told}");
            assert!(strictly.is_err() || strictly == usually, "{told}");
        }
    }
}

/// Behind each type byte that a position has.
fn places(position: &[u8], usual: u8, strict: u8) {
    for start in [&b"!"[..], b"=", b"/092345z", b"@234517h"] {
        judges("B", &[start, position].concat(), usual, strict);
    }
}

/// Letters, marks and places are among what is compared or told.
#[test]
fn what_is_accepted_is_the_usual_packet() {
    let packet = AprsPacket::decode_textual_strictly(LINE).unwrap();
    assert_eq!(Ok(&packet), AprsPacket::decode_textual(LINE).as_ref());
    assert_eq!(packet.from.typed_text(), "A-0");
    assert!(packet.via[0].callsign().unwrap().0.had_zero_ssid());
    assert_eq!(packet.via[1], Via::QConstruct(QConstruct::AR));
    let position = match packet.data {
        AprsData::Position(position) => position,
        _ => panic!("{packet:?}"),
    };
    assert_eq!(position.latitude.hundredths(), -294000);
    assert_eq!(position.longitude.hundredths(), -432000);
    assert_eq!(position.precision, Precision::OneDegree);
    assert_eq!((position.symbol_table, position.symbol_code), (b'\\', b'_'));
    assert!(position.messaging_supported && position.comment == b"Test");
}

/// "minutes give 8, 9 .. after the digits": blanks and discarded places are 0.
#[test]
fn minutes_of_sixty_are_refused_in_positions() {
    places(b"8960.00N/00000.00E-", 0, 8);
    places(b"8959.99N/00000.00E-", 0, 0);
    places(b"9000.00N/18000.00E-", 0, 0);
    places(b"4903.50N/07160.00W-", 0, 9);
    places(b"4903.50N/07159.99W-", 0, 0);
    places(b"006 .  N/00000.00E-", 0, 8);
    places(b"00  .  N/00000.00E-", 0, 0);
    places(b"00  .  N/00099.99E-", 0, 0);
    places(b"000 .  N/0006x.xxE-", 0, 9);
    places(b"000 .  N/0005x.xxE-", 0, 0);
    for minutes in 0..100 {
        let latitude = format!("49{minutes:02}.50S/07259.99W-");
        places(latitude.as_bytes(), 0, if minutes < 60 { 0 } else { 8 });
        let longitude = format!("4959.99N/072{minutes:02}.50E-");
        places(longitude.as_bytes(), 0, if minutes < 60 { 0 } else { 9 });
    }
}

/// "the destination's minutes alone, 11": those of the information may be any.
#[test]
fn minutes_of_sixty_are_refused_in_mic_e_destinations() {
    for (to, strict) in [
        ("S32U6T", 0),
        ("S35Y6T", 0),
        ("S36P6T", 11),
        ("SD6P6T", 11),
        ("33G0PP", 11),
        ("33VLLL", 11),
        ("33ULLL", 0),
        ("33LLLL", 0),
        ("4LLLLL", 0),
    ] {
        judges(to, b"`(_fn\"Oj/Comment", 0, strict);
        judges(to, b"'(_fn\"Oj", 12, if strict == 0 { 12 } else { 11 });
    }
    for minutes in 0..=255 {
        let usual = if minutes < 28 { 12 } else { 0 };
        let body = [b"`(", &[minutes][..], b"fn\"Oj/"].concat();
        judges("S32U6T", &body, usual, usual);
    }
}

/// "`/`, `\`, `0` to `9`, `A` to `Z`; small letters are 20; the code byte is free".
#[test]
fn the_symbol_table_is_judged_and_the_code_is_not() {
    for byte in 0..=255 {
        let table = matches!(byte, b'/' | b'\\' | b'0'..=b'9' | b'A'..=b'Z');
        let strict = if table { 0 } else { 20 };
        let symbol = |table, code| [b"4903.50N", &[table][..], b"07201.75W", &[code]].concat();
        places(&symbol(byte, b'-'), 0, strict);
        places(&symbol(b'/', byte), 0, 0);
        let report = |table, code| [b"`(_fn\"O", &[code, table][..], b"Comment"].concat();
        judges("S32U6T", &report(byte, b'j'), 0, strict);
        judges("S32U6T", &report(b'/', byte), 0, 0);
    }
}

#[test]
fn refusals_in_their_order() {
    places(b"/5L!!<*e7>7P[*4960.00N", 7, 7);
    places(b"4960.00N*07260.00W", 10, 10);
    places(b"4960.00N*07260.00W-", 0, 8);
    places(b"4960.00N/xxxxx.xxE-", 9, 8);
    places(b"4959.00N/xxxxx.xxE-", 9, 9);
    places(b"8960.01N*07260.00W-", 8, 8);
    places(b"4900.00N*07260.00W-", 0, 9);
    places(b"4900.00N*18000.01W-", 9, 9);
    places(b"4900.00N*07200.00W-", 0, 20);
    judges("B", b"/000000z4960.00N*07260.00W-", 17, 17);
    judges("S36P6T", b"`\x1b_fn\"Oj*", 12, 11);
    judges("S36P6T", b"`(_fn\"Oj*", 0, 11);
    judges("S32U6T", b"`\x1b_fn\"Oj*", 12, 12);
    judges("S32U6T", b"`(_fn\"Oj*", 0, 20);
    for (line, expected) in [
        (&b"A->B:!4960.00N*07260.00W-"[..], 3),
        (b"A>B,qAc:!4960.00N*07260.00W-", 6),
        (b"A>B:}C>D:}E>F:}G>H:}I>J:}K>L:!4960.00N*07260.00W-", 19),
    ] {
        assert_eq!(number(&AprsPacket::decode_textual(line)), expected);
        assert_eq!(number(&AprsPacket::decode_textual_strictly(line)), expected);
    }
}

#[test]
fn other_kinds_have_no_strict_rule() {
    judges("B", b"", 0, 0);
    judges("S36P6T", b"4960.00N*07260.00W-", 0, 0);
    judges("S36P6T", b":WU2Z     :!4960.00N*07260.00W-", 0, 0);
    judges("S36P6T", b">092345z4960.00N*07260.00W-", 0, 0);
    judges("S36P6T", b"!4903.50N/07201.75W-!4960.00N*", 0, 0);
    judges("B", b":!4960.00N*07260.00W-", 18, 18);
}
