// A packet built step by step.

use crate::callsign::{Callsign, IntoCallsign};
use crate::latitude::Latitude;
use crate::longitude::Longitude;
use crate::message::{Addressee, AprsMessage};
use crate::mic_e::{AprsMicE, Course, Message, Speed};
use crate::packet::{AprsData, AprsPacket};
use crate::position::AprsPosition;
use crate::precision::Precision;
use crate::q_construct::QConstruct;
use crate::refusal::Refusal;
use crate::status::AprsStatus;
use crate::timestamp::Timestamp;
use crate::via::{Path, Via};

/// Builds a packet. A callsign may be given as one or as its text; the first refusal among them is that of
/// [`build`](PacketBuilder::build). What else a packet may not hold is refused when it is written.
///
/// ```
/// use tusselgro::{AprsPacket, Latitude, Longitude};
///
/// let packet = AprsPacket::position("N0CALL-01", "APRS", Latitude::new(49.05833)?, Longitude::new(-72.02917)?)
///     .hop("WIDE1-1")
///     .symbol(b'/', b'-')
///     .comment(b"Test")
///     .build()?;
/// let mut line = Vec::new();
/// packet.encode_textual(&mut line)?;
/// assert_eq!(line, b"N0CALL-01>APRS,WIDE1-1:!4903.50N/07201.75W-Test");
/// # Ok::<(), tusselgro::Refusal>(())
/// ```
#[derive(Clone, Debug)]
#[must_use = "a builder gives its packet by `build`"]
pub struct PacketBuilder<B> {
    from: Callsign,
    via: Path,
    body: B,
    refusal: Option<Refusal>,
}

impl<'a> AprsPacket<'a> {
    /// Starts a packet with a position, that of [`AprsPosition::new`]. Each angle brings its letter with it.
    pub fn position(
        from: impl IntoCallsign,
        to: impl IntoCallsign,
        latitude: Latitude,
        longitude: Longitude,
    ) -> PacketBuilder<AprsPosition<'a>> {
        let body = AprsPosition::new(Callsign::default(), latitude, longitude);
        let mut builder = PacketBuilder::new(from, body);
        builder.body.to = builder.callsign(to);
        builder
    }

    /// Starts a packet with a message, that of [`AprsMessage::new`]. The addressee is filled up with spaces; one of more
    /// than nine bytes is refused.
    ///
    /// ```
    /// use tusselgro::AprsPacket;
    ///
    /// let packet = AprsPacket::message("N7LEM", "APRS", "WU2Z", b"Testing").id(b"003").build()?;
    /// let mut line = Vec::new();
    /// packet.encode_textual(&mut line)?;
    /// assert_eq!(line, b"N7LEM>APRS::WU2Z     :Testing{003");
    /// # Ok::<(), tusselgro::Refusal>(())
    /// ```
    pub fn message(
        from: impl IntoCallsign,
        to: impl IntoCallsign,
        addressee: impl AsRef<[u8]>,
        text: &'a [u8],
    ) -> PacketBuilder<AprsMessage<'a>> {
        let body = AprsMessage::new(Callsign::default(), Addressee::default(), text);
        let mut builder = PacketBuilder::new(from, body);
        builder.body.to = builder.callsign(to);
        builder.body.addressee = Addressee::new(addressee).unwrap_or_else(|refusal| {
            builder.note(refusal);
            Addressee::default()
        });
        builder
    }

    /// Starts a packet with a status without a time.
    pub fn status(
        from: impl IntoCallsign,
        to: impl IntoCallsign,
        comment: &'a [u8],
    ) -> PacketBuilder<AprsStatus<'a>> {
        let body = AprsStatus::new(Callsign::default(), None, comment);
        let mut builder = PacketBuilder::new(from, body);
        builder.body.to = builder.callsign(to);
        builder
    }

    /// Starts a packet with a Mic-E report, that of [`AprsMicE::new`].
    pub fn mic_e(
        from: impl IntoCallsign,
        latitude: Latitude,
        longitude: Longitude,
    ) -> PacketBuilder<AprsMicE<'a>> {
        PacketBuilder::new(from, AprsMicE::new(latitude, longitude))
    }
}

impl<B> PacketBuilder<B> {
    fn new(from: impl IntoCallsign, body: B) -> Self {
        let mut builder = PacketBuilder {
            from: Callsign::default(),
            via: Path::new(),
            body,
            refusal: None,
        };
        builder.from = builder.callsign(from);
        builder
    }

    /// The callsign; where it is refused, an empty one, and the refusal is noted.
    fn callsign(&mut self, callsign: impl IntoCallsign) -> Callsign {
        callsign.into_callsign().unwrap_or_else(|refusal| {
            self.note(refusal);
            Callsign::default()
        })
    }

    fn note(&mut self, refusal: Refusal) {
        self.refusal = self.refusal.or(Some(refusal));
    }

    fn via(mut self, via: Via) -> Self {
        if let Err(refusal) = self.via.push(via) {
            self.note(refusal);
        }
        self
    }

    /// Puts a hop behind the others that was not heard yet. It is a callsign, also one that is spelt as a Q element;
    /// [`q_construct`](Self::q_construct) puts such an element.
    pub fn hop(mut self, callsign: impl IntoCallsign) -> Self {
        let callsign = self.callsign(callsign);
        self.via(Via::Callsign(callsign, false))
    }

    /// Puts a hop behind the others that was heard.
    pub fn heard_hop(mut self, callsign: impl IntoCallsign) -> Self {
        let callsign = self.callsign(callsign);
        self.via(Via::Callsign(callsign, true))
    }

    /// Puts a Q element behind the other hops. A frame is written without it.
    ///
    /// ```
    /// use tusselgro::{AprsPacket, QConstruct};
    ///
    /// let packet = AprsPacket::status("N7LEM", "APRS", b"hi")
    ///     .heard_hop("TCPIP")
    ///     .q_construct(QConstruct::AC)
    ///     .hop("T2TEXAS")
    ///     .build()?;
    /// let mut line = Vec::new();
    /// packet.encode_textual(&mut line)?;
    /// assert_eq!(line, b"N7LEM>APRS,TCPIP*,qAC,T2TEXAS:>hi");
    /// # Ok::<(), tusselgro::Refusal>(())
    /// ```
    pub fn q_construct(self, q: QConstruct) -> Self {
        self.via(Via::QConstruct(q))
    }

    /// The packet, or the first refusal of a callsign, a hop or an addressee.
    pub fn build<'a>(self) -> Result<AprsPacket<'a>, Refusal>
    where
        B: Into<AprsData<'a>>,
    {
        let mut packet = AprsPacket::new(self.from, self.body);
        packet.via = self.via;
        self.refusal.map_or(Ok(packet), Err)
    }
}

/// The steps that the two kinds with a place have.
macro_rules! placed {
    ($body:ident) => {
        impl<'a> PacketBuilder<$body<'a>> {
            /// How many last digits of the latitude are left blank.
            pub fn precision(mut self, precision: Precision) -> Self {
                self.body.precision = precision;
                self
            }

            /// The symbol's table and code.
            pub fn symbol(mut self, table: u8, code: u8) -> Self {
                self.body.symbol_table = table;
                self.body.symbol_code = code;
                self
            }

            /// What follows, borrowed.
            pub fn comment(mut self, comment: &'a [u8]) -> Self {
                self.body.comment = comment;
                self
            }
        }
    };
}
placed!(AprsPosition);
placed!(AprsMicE);

impl PacketBuilder<AprsPosition<'_>> {
    /// The time.
    pub fn timestamp(mut self, timestamp: Timestamp) -> Self {
        self.body.timestamp = Some(timestamp);
        self
    }

    /// Whether the station takes messages.
    pub fn messaging(mut self, supported: bool) -> Self {
        self.body.messaging_supported = supported;
        self
    }
}

impl<'a> PacketBuilder<AprsMessage<'a>> {
    /// The identifier, borrowed.
    pub fn id(mut self, id: &'a [u8]) -> Self {
        self.body.id = Some(id);
        self
    }
}

impl PacketBuilder<AprsStatus<'_>> {
    /// The time, which is day, hour and minute in UTC.
    pub fn timestamp(mut self, timestamp: Timestamp) -> Self {
        self.body.timestamp = Some(timestamp);
        self
    }
}

impl PacketBuilder<AprsMicE<'_>> {
    /// The message.
    pub fn message(mut self, message: Message) -> Self {
        self.body.message = message;
        self
    }

    /// Speed and course.
    pub fn motion(mut self, speed: Speed, course: Course) -> Self {
        self.body.speed = speed;
        self.body.course = course;
        self
    }

    /// Whether the report is current, not old.
    pub fn current(mut self, current: bool) -> Self {
        self.body.current = current;
        self
    }
}

#[cfg(test)]
mod tests {
    use super::*;

    fn place() -> (Latitude, Longitude) {
        let latitude = Latitude::from_hundredths(200564).unwrap();
        (latitude, Longitude::from_hundredths(-672774).unwrap())
    }

    fn line(packet: &AprsPacket<'_>) -> Vec<u8> {
        let mut out = Vec::new();
        packet.encode_textual(&mut out).unwrap();
        out
    }

    #[test]
    fn a_position_with_every_step() {
        let to = Callsign::new("APRS").unwrap();
        let packet = AprsPacket::position(String::from("A-01"), to, place().0, place().1)
            .heard_hop("B")
            .hop(&to)
            .precision(Precision::OneMinute)
            .symbol(b'\\', b'j')
            .timestamp(Timestamp::DDHHMMLocal(9, 23, 45))
            .messaging(true)
            .comment(b"Hi")
            .build();
        assert_eq!(
            line(&packet.unwrap()),
            b"A-01>APRS,B*,APRS:@092345/3325.  N\\11207.74WjHi"
        );
    }

    #[test]
    fn a_mic_e_report_with_every_step() {
        let packet = AprsPacket::mic_e("A", place().0, place().1)
            .message(Message::M3)
            .motion(Speed::new(20).unwrap(), Course::new(251).unwrap())
            .symbol(b'/', b'j')
            .current(false)
            .build();
        assert_eq!(line(&packet.unwrap()), b"A>S32UVT:'(_fn\"Oj/");
    }

    #[test]
    fn a_message_with_every_step() {
        let packet = AprsPacket::message("A-01", "APRS", b"  \0:", b"Testing")
            .heard_hop("B")
            .hop("C")
            .id(b"a{b")
            .build();
        assert_eq!(
            line(&packet.unwrap()),
            b"A-01>APRS,B*,C::  \0:     :Testing{a{b"
        );
    }

    #[test]
    fn a_status_with_every_step() {
        let packet = AprsPacket::status("A-01", "APRS", b"Net Control Center")
            .timestamp(Timestamp::DDHHMM(9, 23, 45))
            .hop("B")
            .build();
        assert_eq!(
            line(&packet.unwrap()),
            b"A-01>APRS,B:>092345zNet Control Center"
        );
    }

    #[test]
    fn a_q_element_is_not_a_callsign_of_its_name() {
        let status = || AprsPacket::status("A", "B", b"");
        let q = status().q_construct(QConstruct::AC).heard_hop("C").build();
        let callsign = status().hop("qAC").heard_hop("C").build();
        assert_ne!(q, callsign);
        let expected = b"A>B,qAC,C*:>";
        assert_eq!(line(&callsign.unwrap()), expected);
        assert_eq!(AprsPacket::decode_textual(expected), q);
        assert_eq!(line(&q.unwrap()), expected);
    }

    #[test]
    fn what_is_not_told_has_its_default() {
        let (latitude, longitude) = place();
        let position = AprsPacket::position("A", "B", latitude, longitude).build();
        assert_eq!(line(&position.unwrap()), b"A>B:!3325.64N/11207.74W/");
        let report = AprsPacket::mic_e("A", latitude, longitude).build().unwrap();
        assert_eq!(AprsPacket::decode_textual(&line(&report)), Ok(report));
        let message = AprsPacket::message("A", "B", "", b"").build().unwrap();
        assert_eq!(line(&message), b"A>B::         :");
        let status = AprsPacket::status("A", "B", b"").build().unwrap();
        assert_eq!(line(&status), b"A>B:>");
    }

    /// With the angle's own letters, N and E at 0.
    #[test]
    fn zero_is_north_and_east_unless_it_is_told_otherwise() {
        let (north, east) = (Latitude::default(), Longitude::default());
        let built = AprsPacket::position("A", "B", north, east).build().unwrap();
        assert_eq!(
            AprsPacket::decode_textual(b"A>B:!0000.00N/00000.00E/"),
            Ok(built)
        );
        let south = Latitude::from_dmh(0, 0, 0, false).unwrap();
        let west = Longitude::from_dmh(0, 0, 0, false).unwrap();
        let told = AprsPacket::position("A", "B", south, west).build().unwrap();
        assert_eq!(
            AprsPacket::decode_textual(b"A>B:!0000.00S/00000.00W/"),
            Ok(told.clone())
        );
        assert_eq!(line(&told), b"A>B:!0000.00N/00000.00E/");
    }

    #[test]
    fn the_first_refusal_is_kept() {
        let (latitude, longitude) = place();
        let twice = AprsPacket::position("A-", "ABCDEFGHIJKLMNOPQ", latitude, longitude).build();
        assert_eq!(twice, Err(Refusal::Callsign));
        let to = AprsPacket::position("A", "ABCDEFGHIJKLMNOPQ", latitude, longitude).build();
        assert_eq!(to, Err(Refusal::CallsignTooLong));
        let nine = (0..9).fold(AprsPacket::mic_e("A", latitude, longitude), |builder, _| {
            builder.hop("B")
        });
        assert_eq!(nine.build(), Err(Refusal::TooManyHops));
        let eight = (0..8).fold(AprsPacket::status("A", "B", b""), |builder, _| {
            builder.q_construct(QConstruct::AR)
        });
        assert!(eight.clone().build().is_ok());
        assert_eq!(
            eight.q_construct(QConstruct::AR).build(),
            Err(Refusal::TooManyHops)
        );
        let ten = AprsPacket::message("A", "B", "0123456789", b"").hop("C-");
        assert_eq!(ten.build(), Err(Refusal::Malformed));
        let both = AprsPacket::message("A", "B-", "0123456789", b"");
        assert_eq!(both.build(), Err(Refusal::Callsign));
        assert_eq!(
            AprsPacket::status("A", "B-", b"").build(),
            Err(Refusal::Callsign)
        );
    }
}
