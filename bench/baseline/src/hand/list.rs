use super::enumerated::enumerated;
use crate::bits::{BitReader, BitWriter};
use crate::rows::states;

enumerated! { Kind { Fixed, Moving, Relayed, Estimated, Lost } }

/// Readings
pub struct List {
    pub readings: Vec<Reading>,
}

pub struct Reading {
    pub id: u16,
    pub kind: Kind,
    pub valid: bool,
    pub position: Position,
    pub grade: Option<u8>,
    pub repeated: bool,
}

pub struct Position {
    pub x: i16,
    pub y: i16,
    pub height: Option<u8>,
}

impl List {
    pub fn sample() -> Self {
        List { readings: states(300, 1).map(Reading::of).collect() }
    }

    /// The octets, or `None` where something is out of its range.
    pub fn encode(&self) -> Option<Vec<u8>> {
        let mut bits = BitWriter::with_capacity(2 + 8 * self.readings.len());
        bits.put_ranged::<0, 1000>(self.readings.len() as i64)?;
        self.readings.iter().try_for_each(|reading| reading.put(&mut bits))?;
        Some(bits.finish())
    }

    /// The message, or `None` where the octets are no encoding of one.
    pub fn decode(octets: &[u8]) -> Option<Self> {
        let mut bits = BitReader::new(octets);
        let count = bits.take_ranged::<0, 1000>()? as usize;
        let mut readings = Vec::with_capacity(count);
        for _ in 0..count {
            readings.push(Reading::take(&mut bits)?);
        }
        bits.is_at_end().then_some(List { readings })
    }
}

impl Reading {
    fn of(state: u32) -> Self {
        let part = |from: u32, below: u32| state >> from & below;
        Reading {
            id: part(16, 65535) as u16,
            kind: [Kind::Fixed, Kind::Moving, Kind::Relayed, Kind::Estimated][part(29, 3) as usize],
            valid: part(28, 1) == 1,
            position: Position {
                x: part(3, 2047) as i16 - 1000,
                y: part(14, 2047) as i16 - 1000,
                height: (part(25, 1) == 1).then_some(part(9, 255) as u8),
            },
            grade: (part(27, 1) == 1).then_some(part(20, 7) as u8 + 1),
            repeated: part(26, 1) == 1,
        }
    }

    fn put(&self, bits: &mut BitWriter) -> Option<()> {
        bits.put_flags([self.grade.is_some(), self.repeated]);
        bits.put(16, self.id.into());
        self.kind.put(bits);
        bits.put_flags([self.valid, self.position.height.is_some()]);
        bits.put_ranged::<-2000, 2000>(self.position.x)?;
        bits.put_ranged::<-2000, 2000>(self.position.y)?;
        if let Some(height) = self.position.height {
            bits.put(8, height.into());
        }
        if let Some(grade) = self.grade {
            bits.put_ranged::<1, 16>(grade)?;
        }
        if self.repeated {
            bits.put(1, 1);
        }
        Some(())
    }

    fn take(bits: &mut BitReader) -> Option<Self> {
        let [has_grade, repeated] = bits.take_flags()?;
        let id = bits.take(16)? as u16;
        let kind = Kind::take(bits)?;
        let [valid, has_height] = bits.take_flags()?;
        let position = Position {
            x: bits.take_ranged::<-2000, 2000>()? as i16,
            y: bits.take_ranged::<-2000, 2000>()? as i16,
            height: bits.take_if(has_height, |bits| Some(bits.take(8)? as u8))?,
        };
        let grade = bits.take_if(has_grade, |bits| Some(bits.take_ranged::<1, 16>()? as u8))?;
        if repeated {
            bits.take_constant(1, 1)?;
        }
        Some(Reading { id, kind, valid, position, grade, repeated })
    }
}
