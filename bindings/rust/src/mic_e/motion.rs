// Speed and course: two kinds of number, each with its own range.

use crate::refusal::Refusal;

/// A speed of 0 to 799 knots.
#[derive(Clone, Copy, Debug, Default, PartialEq, Eq, PartialOrd, Ord, Hash)]
pub struct Speed(u32);

impl Speed {
    /// A speed in knots; one over 799 is out of range.
    pub fn new(knots: u32) -> Result<Self, Refusal> {
        match knots {
            0..=799 => Ok(Speed(knots)),
            _ => Err(Refusal::OutOfRange),
        }
    }

    /// In knots.
    pub fn knots(self) -> u32 {
        self.0
    }
}

/// A course of 0 to 360 degrees: 360 is north, 0 an unknown one.
#[derive(Clone, Copy, Debug, Default, PartialEq, Eq, PartialOrd, Ord, Hash)]
pub struct Course(u32);

impl Course {
    /// An unknown course.
    pub const UNKNOWN: Self = Course(0);

    /// A course in degrees; one over 360 is out of range.
    pub fn new(degrees: u32) -> Result<Self, Refusal> {
        match degrees {
            0..=360 => Ok(Course(degrees)),
            _ => Err(Refusal::OutOfRange),
        }
    }

    /// In degrees.
    pub fn degrees(self) -> u32 {
        self.0
    }
}

#[cfg(test)]
mod tests {
    use super::*;
    use crate::ffi;

    /// What the library says to a setting: 15 where it is out of range, else that an empty buffer is too short.
    fn said(speed: u32, course: u32) -> u8 {
        // SAFETY: a length of 0 goes with any pointer.
        unsafe { ffi::tusselgro_list_motion(speed, course, std::ptr::null_mut(), 0) }.refusal
    }

    #[test]
    fn the_limits_are_those_of_the_library() {
        assert_eq!(
            (Speed::new(799).map(Speed::knots), said(799, 0)),
            (Ok(799), 16)
        );
        assert_eq!(
            (Speed::new(800), said(800, 0)),
            (Err(Refusal::OutOfRange), 15)
        );
        assert_eq!(
            (Course::new(360).map(Course::degrees), said(0, 360)),
            (Ok(360), 16)
        );
        assert_eq!(
            (Course::new(361), said(0, 361)),
            (Err(Refusal::OutOfRange), 15)
        );
        assert_eq!(Course::new(0), Ok(Course::UNKNOWN));
    }
}
