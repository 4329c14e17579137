//! The message of `modules/bsm.asn`, as structs.
use super::enumerated::enumerated;
use crate::bits::{BitReader, BitWriter};
use crate::rows::CRUMBS;

/// BasicSafetyMessage
pub struct Bsm {
    pub core: Core,
    pub part_two: Option<Vec<PartTwo>>,
    pub vehicle_id: Option<VehicleId>,
    pub note: Option<String>,
}

impl Bsm {
    /// The octets, or `None` where something is out of its range.
    pub fn encode(&self) -> Option<Vec<u8>> {
        let mut bits = BitWriter::with_capacity(512);
        let is_extended = self.vehicle_id.is_some() || self.note.is_some();
        bits.put_flags([is_extended, self.part_two.is_some()]);
        self.core.put(&mut bits)?;
        if let Some(parts) = &self.part_two {
            bits.put_ranged::<1, 8>(i64::try_from(parts.len()).ok()?)?;
            parts.iter().try_for_each(|part| part.put(&mut bits))?;
        }
        if is_extended {
            bits.put(7, 1);
            bits.put_flags([self.vehicle_id.is_some(), self.note.is_some()]);
        }
        if let Some(id) = &self.vehicle_id {
            let mut content = BitWriter::with_capacity(8);
            id.put(&mut content);
            bits.put_open(content);
        }
        if let Some(note) = &self.note {
            let mut content = BitWriter::with_capacity(64);
            content.put_ranged::<1, 63>(i64::try_from(note.len()).ok()?)?;
            content.put_characters(note.as_bytes())?;
            bits.put_open(content);
        }
        Some(bits.finish())
    }

    /// The message, or `None` where the octets are no encoding of one.
    pub fn decode(octets: &[u8]) -> Option<Self> {
        let mut bits = BitReader::new(octets);
        let [is_extended, has_parts] = bits.take_flags()?;
        let core = Core::take(&mut bits)?;
        let part_two = bits.take_if(has_parts, take_parts)?;
        let mut has_id = false;
        let mut has_note = false;
        if is_extended {
            bits.take_constant(7, 1)?;
            [has_id, has_note] = bits.take_flags()?;
            if !has_id && !has_note {
                return None;
            }
        }
        let vehicle_id = bits.take_if(has_id, |bits| bits.take_open(VehicleId::take))?;
        let note = bits.take_if(has_note, |bits| bits.take_open(take_note))?;
        bits.is_at_end().then_some(Bsm { core, part_two, vehicle_id, note })
    }
}

fn take_parts(bits: &mut BitReader) -> Option<Vec<PartTwo>> {
    let count = bits.take_ranged::<1, 8>()? as usize;
    let mut parts = Vec::with_capacity(count);
    for _ in 0..count {
        parts.push(PartTwo::take(bits)?);
    }
    Some(parts)
}

fn take_note(bits: &mut BitReader) -> Option<String> {
    let length = bits.take_ranged::<1, 63>()?;
    String::from_utf8(bits.take_characters(length as usize)?).ok()
}

/// BSMcoreData
pub struct Core {
    pub count: u8,
    pub id: [u8; 4],
    pub second: u16,
    pub latitude: i32,
    pub longitude: i32,
    pub elevation: i32,
    pub accuracy: Accuracy,
    pub transmission: Transmission,
    pub speed: u16,
    pub heading: u16,
    pub angle: i8,
    pub acceleration: AccelerationSet,
    pub brakes: Brakes,
    pub width: u16,
    pub length: u16,
}

enumerated! {
    Transmission { Neutral, Park, Forward, Reverse, Reserved1, Reserved2, Reserved3, Unavailable }
}

impl Core {
    fn put(&self, bits: &mut BitWriter) -> Option<()> {
        bits.put_ranged::<0, 127>(self.count)?;
        bits.put(32, u32::from_be_bytes(self.id).into());
        bits.put(16, self.second.into());
        bits.put_ranged::<-900000000, 900000001>(self.latitude)?;
        bits.put_ranged::<-1799999999, 1800000001>(self.longitude)?;
        bits.put_ranged::<-4096, 61439>(self.elevation)?;
        self.accuracy.put(bits);
        self.transmission.put(bits);
        bits.put_ranged::<0, 8191>(self.speed)?;
        bits.put_ranged::<0, 28800>(self.heading)?;
        bits.put_ranged::<-126, 127>(self.angle)?;
        self.acceleration.put(bits)?;
        self.brakes.put(bits)?;
        bits.put_ranged::<0, 1023>(self.width)?;
        bits.put_ranged::<0, 4095>(self.length)
    }

    fn take(bits: &mut BitReader) -> Option<Self> {
        Some(Core {
            count: bits.take(7)? as u8,
            id: (bits.take(32)? as u32).to_be_bytes(),
            second: bits.take(16)? as u16,
            latitude: bits.take_ranged::<-900000000, 900000001>()? as i32,
            longitude: bits.take_ranged::<-1799999999, 1800000001>()? as i32,
            elevation: bits.take_ranged::<-4096, 61439>()? as i32,
            accuracy: Accuracy::take(bits)?,
            transmission: Transmission::take(bits)?,
            speed: bits.take(13)? as u16,
            heading: bits.take_ranged::<0, 28800>()? as u16,
            angle: bits.take_ranged::<-126, 127>()? as i8,
            acceleration: AccelerationSet::take(bits)?,
            brakes: Brakes::take(bits)?,
            width: bits.take(10)? as u16,
            length: bits.take(12)? as u16,
        })
    }
}

/// PositionalAccuracy
pub struct Accuracy {
    pub major: u8,
    pub minor: u8,
    pub orientation: u16,
}

impl Accuracy {
    fn put(&self, bits: &mut BitWriter) {
        bits.put(8, self.major.into());
        bits.put(8, self.minor.into());
        bits.put(16, self.orientation.into());
    }

    fn take(bits: &mut BitReader) -> Option<Self> {
        Some(Accuracy {
            major: bits.take(8)? as u8,
            minor: bits.take(8)? as u8,
            orientation: bits.take(16)? as u16,
        })
    }
}

/// AccelerationSet4Way
pub struct AccelerationSet {
    pub along: i16,
    pub across: i16,
    pub vertical: i8,
    pub yaw: i16,
}

impl AccelerationSet {
    fn put(&self, bits: &mut BitWriter) -> Option<()> {
        bits.put_ranged::<-2000, 2001>(self.along)?;
        bits.put_ranged::<-2000, 2001>(self.across)?;
        bits.put_ranged::<-127, 127>(self.vertical)?;
        bits.put_ranged::<-32767, 32767>(self.yaw)
    }

    fn take(bits: &mut BitReader) -> Option<Self> {
        Some(AccelerationSet {
            along: bits.take_ranged::<-2000, 2001>()? as i16,
            across: bits.take_ranged::<-2000, 2001>()? as i16,
            vertical: bits.take_ranged::<-127, 127>()? as i8,
            yaw: bits.take_ranged::<-32767, 32767>()? as i16,
        })
    }
}

/// BrakeSystemStatus
pub struct Brakes {
    /// the low five bits, the first of them the highest
    pub wheels: u8,
    pub traction: Control,
    pub antilock: Control,
    pub stability: Control,
    pub boost: Boost,
    pub auxiliary: Auxiliary,
}

enumerated! { Control { Unavailable, Off, On, Engaged } }
enumerated! { Boost { Unavailable, Off, On } }
enumerated! { Auxiliary { Unavailable, Off, On, Reserved } }

impl Brakes {
    fn put(&self, bits: &mut BitWriter) -> Option<()> {
        bits.put_ranged::<0, 31>(self.wheels)?;
        self.traction.put(bits);
        self.antilock.put(bits);
        self.stability.put(bits);
        self.boost.put(bits);
        self.auxiliary.put(bits);
        Some(())
    }

    fn take(bits: &mut BitReader) -> Option<Self> {
        Some(Brakes {
            wheels: bits.take(5)? as u8,
            traction: Control::take(bits)?,
            antilock: Control::take(bits)?,
            stability: Control::take(bits)?,
            boost: Boost::take(bits)?,
            auxiliary: Auxiliary::take(bits)?,
        })
    }
}

/// VehicleID
pub enum VehicleId {
    Entity([u8; 4]),
    Station(u32),
}

impl VehicleId {
    fn put(&self, bits: &mut BitWriter) {
        let (place, number) = match self {
            VehicleId::Entity(id) => (0, u32::from_be_bytes(*id)),
            VehicleId::Station(number) => (1, *number),
        };
        bits.put(1, place);
        bits.put(32, number.into());
    }

    fn take(bits: &mut BitReader) -> Option<Self> {
        let is_station = bits.take_flag()?;
        let number = bits.take(32)? as u32;
        Some(match is_station {
            true => VehicleId::Station(number),
            false => VehicleId::Entity(number.to_be_bytes()),
        })
    }
}

/// PartIIcontent
pub enum PartTwo {
    Safety(Safety),
    Special(Special),
    Supplemental(Supplemental),
}

impl PartTwo {
    fn put(&self, bits: &mut BitWriter) -> Option<()> {
        match self {
            PartTwo::Safety(safety) => {
                bits.put(2, 0);
                safety.put(bits)
            }
            PartTwo::Special(special) => {
                bits.put(2, 1);
                special.put(bits)
            }
            PartTwo::Supplemental(supplemental) => {
                bits.put(8, 1 << 7);
                let mut content = BitWriter::with_capacity(32);
                supplemental.put(&mut content)?;
                bits.put_open(content);
                Some(())
            }
        }
    }

    fn take(bits: &mut BitReader) -> Option<Self> {
        if bits.take_flag()? {
            bits.take_constant(7, 0)?;
            return Some(PartTwo::Supplemental(bits.take_open(Supplemental::take)?));
        }
        Some(match bits.take_flag()? {
            false => PartTwo::Safety(Safety::take(bits)?),
            true => PartTwo::Special(Special::take(bits)?),
        })
    }
}

/// VehicleSafetyExtensions
pub struct Safety {
    pub events: Option<Vec<bool>>,
    pub history: Option<History>,
    pub prediction: Option<Prediction>,
    pub lights: Option<Vec<bool>>,
}

impl Safety {
    fn put(&self, bits: &mut BitWriter) -> Option<()> {
        bits.put_flags([
            false,
            self.events.is_some(),
            self.history.is_some(),
            self.prediction.is_some(),
            self.lights.is_some(),
        ]);
        if let Some(events) = &self.events {
            bits.put_bit_string::<13>(events)?;
        }
        if let Some(history) = &self.history {
            history.put(bits)?;
        }
        if let Some(prediction) = &self.prediction {
            bits.put(1, 0);
            bits.put_ranged::<-32767, 32767>(prediction.radius)?;
            bits.put_ranged::<0, 200>(prediction.confidence)?;
        }
        match &self.lights {
            Some(lights) => bits.put_bit_string::<9>(lights),
            None => Some(()),
        }
    }

    fn take(bits: &mut BitReader) -> Option<Self> {
        let [is_extended, has_events, has_history, has_prediction, has_lights] = bits.take_flags()?;
        if is_extended {
            return None;
        }
        Some(Safety {
            events: bits.take_if(has_events, BitReader::take_bit_string::<13>)?,
            history: bits.take_if(has_history, History::take)?,
            prediction: bits.take_if(has_prediction, Prediction::take)?,
            lights: bits.take_if(has_lights, BitReader::take_bit_string::<9>)?,
        })
    }
}

/// PathPrediction
pub struct Prediction {
    pub radius: i16,
    pub confidence: u8,
}

impl Prediction {
    fn take(bits: &mut BitReader) -> Option<Self> {
        bits.take_constant(1, 0)?;
        Some(Prediction {
            radius: bits.take_ranged::<-32767, 32767>()? as i16,
            confidence: bits.take_ranged::<0, 200>()? as u8,
        })
    }
}

/// PathHistory
pub struct History {
    /// the first bit is the highest
    pub status: Option<u8>,
    pub crumbs: Vec<Crumb>,
}

impl History {
    fn put(&self, bits: &mut BitWriter) -> Option<()> {
        bits.put_flags([false, self.status.is_some()]);
        if let Some(status) = self.status {
            bits.put(8, status.into());
        }
        bits.put_ranged::<1, 23>(i64::try_from(self.crumbs.len()).ok()?)?;
        self.crumbs.iter().try_for_each(|crumb| crumb.put(bits))
    }

    fn take(bits: &mut BitReader) -> Option<Self> {
        let [is_extended, has_status] = bits.take_flags()?;
        if is_extended {
            return None;
        }
        let status = bits.take_if(has_status, |bits| Some(bits.take(8)? as u8))?;
        let count = bits.take_ranged::<1, 23>()? as usize;
        let mut crumbs = Vec::with_capacity(count);
        for _ in 0..count {
            crumbs.push(Crumb::take(bits)?);
        }
        Some(History { status, crumbs })
    }
}

/// PathHistoryPoint
pub struct Crumb {
    pub latitude: i32,
    pub longitude: i32,
    pub elevation: i16,
    pub time: u16,
    pub speed: Option<u16>,
    pub accuracy: Option<Accuracy>,
    pub heading: Option<u8>,
}

impl Crumb {
    fn put(&self, bits: &mut BitWriter) -> Option<()> {
        bits.put_flags([false, self.speed.is_some(), self.accuracy.is_some(), self.heading.is_some()]);
        bits.put_ranged::<-131072, 131071>(self.latitude)?;
        bits.put_ranged::<-131072, 131071>(self.longitude)?;
        bits.put_ranged::<-2048, 2047>(self.elevation)?;
        bits.put_ranged::<1, 65535>(self.time)?;
        if let Some(speed) = self.speed {
            bits.put_ranged::<0, 8191>(speed)?;
        }
        if let Some(accuracy) = &self.accuracy {
            accuracy.put(bits);
        }
        match self.heading {
            Some(heading) => bits.put_ranged::<0, 240>(heading),
            None => Some(()),
        }
    }

    fn take(bits: &mut BitReader) -> Option<Self> {
        let [is_extended, has_speed, has_accuracy, has_heading] = bits.take_flags()?;
        if is_extended {
            return None;
        }
        Some(Crumb {
            latitude: bits.take_ranged::<-131072, 131071>()? as i32,
            longitude: bits.take_ranged::<-131072, 131071>()? as i32,
            elevation: bits.take_ranged::<-2048, 2047>()? as i16,
            time: bits.take_ranged::<1, 65535>()? as u16,
            speed: bits.take_if(has_speed, |bits| Some(bits.take(13)? as u16))?,
            accuracy: bits.take_if(has_accuracy, Accuracy::take)?,
            heading: bits.take_if(has_heading, |bits| Some(bits.take_ranged::<0, 240>()? as u8))?,
        })
    }
}

/// SpecialVehicleExtensions
pub struct Special {
    pub alerts: Option<Alerts>,
    pub description: Option<Description>,
}

impl Special {
    fn put(&self, bits: &mut BitWriter) -> Option<()> {
        bits.put_flags([false, self.alerts.is_some(), self.description.is_some()]);
        if let Some(alerts) = &self.alerts {
            alerts.put(bits)?;
        }
        match &self.description {
            Some(description) => description.put(bits),
            None => Some(()),
        }
    }

    fn take(bits: &mut BitReader) -> Option<Self> {
        let [is_extended, has_alerts, has_description] = bits.take_flags()?;
        if is_extended {
            return None;
        }
        Some(Special {
            alerts: bits.take_if(has_alerts, Alerts::take)?,
            description: bits.take_if(has_description, Description::take)?,
        })
    }
}

/// EmergencyDetails
pub struct Alerts {
    pub rights: u8,
    pub siren: Siren,
    pub lights: Lightbar,
    pub multi: Multi,
    pub response: Option<Response>,
}

enumerated! { Siren { Unavailable, NotInUse, InUse, Reserved } }
enumerated! {
    Lightbar { Unavailable, NotInUse, InUse, YellowCaution, SchoolBus, ArrowSigns, SlowMoving, FreqStops }
}
enumerated! { Multi { Unavailable, SingleVehicle, MultiVehicle, Reserved } }
enumerated! {
    /// Has an extension mark, and no items after it.
    Response { NotInUse, Emergency, NonEmergency, Pursuit, Stationary, SlowMoving, StopAndGo }
}

impl Alerts {
    fn put(&self, bits: &mut BitWriter) -> Option<()> {
        bits.put_flags([false, self.response.is_some()]);
        bits.put_ranged::<0, 31>(self.rights)?;
        self.siren.put(bits);
        self.lights.put(bits);
        self.multi.put(bits);
        if let Some(response) = self.response {
            bits.put(1, 0);
            response.put(bits);
        }
        Some(())
    }

    fn take(bits: &mut BitReader) -> Option<Self> {
        let [is_extended, has_response] = bits.take_flags()?;
        if is_extended {
            return None;
        }
        Some(Alerts {
            rights: bits.take(5)? as u8,
            siren: Siren::take(bits)?,
            lights: Lightbar::take(bits)?,
            multi: Multi::take(bits)?,
            response: bits.take_if(has_response, |bits| {
                bits.take_constant(1, 0)?;
                Response::take(bits)
            })?,
        })
    }
}

/// EventDescription
pub struct Description {
    pub event: u16,
    pub codes: Option<Vec<u16>>,
    /// the first bit is the highest
    pub heading: Option<u16>,
}

impl Description {
    fn put(&self, bits: &mut BitWriter) -> Option<()> {
        bits.put_flags([false, self.codes.is_some(), self.heading.is_some()]);
        bits.put(16, self.event.into());
        if let Some(codes) = &self.codes {
            bits.put_ranged::<1, 8>(i64::try_from(codes.len()).ok()?)?;
            codes.iter().for_each(|code| bits.put(16, u64::from(*code)));
        }
        if let Some(heading) = self.heading {
            bits.put(16, heading.into());
        }
        Some(())
    }

    fn take(bits: &mut BitReader) -> Option<Self> {
        let [is_extended, has_codes, has_heading] = bits.take_flags()?;
        if is_extended {
            return None;
        }
        Some(Description {
            event: bits.take(16)? as u16,
            codes: bits.take_if(has_codes, |bits| {
                let count = bits.take_ranged::<1, 8>()?;
                (0..count).map(|_| Some(bits.take(16)? as u16)).collect()
            })?,
            heading: bits.take_if(has_heading, |bits| Some(bits.take(16)? as u16))?,
        })
    }
}

/// SupplementalVehicleExtensions
pub struct Supplemental {
    pub classification: Option<u8>,
    pub vehicle: Option<VehicleData>,
    pub weather: Option<Weather>,
}

impl Supplemental {
    fn put(&self, bits: &mut BitWriter) -> Option<()> {
        bits.put_flags([
            false,
            self.classification.is_some(),
            self.vehicle.is_some(),
            self.weather.is_some(),
        ]);
        if let Some(classification) = self.classification {
            bits.put(8, classification.into());
        }
        if let Some(vehicle) = &self.vehicle {
            vehicle.put(bits)?;
        }
        match &self.weather {
            Some(weather) => weather.put(bits),
            None => Some(()),
        }
    }

    fn take(bits: &mut BitReader) -> Option<Self> {
        let [is_extended, has_classification, has_vehicle, has_weather] = bits.take_flags()?;
        if is_extended {
            return None;
        }
        Some(Supplemental {
            classification: bits.take_if(has_classification, |bits| Some(bits.take(8)? as u8))?,
            vehicle: bits.take_if(has_vehicle, VehicleData::take)?,
            weather: bits.take_if(has_weather, Weather::take)?,
        })
    }
}

/// VehicleData
pub struct VehicleData {
    pub height: Option<u8>,
    /// front and rear
    pub bumpers: Option<(u8, u8)>,
    pub mass: Option<u8>,
    pub trailer_weight: Option<u16>,
}

impl VehicleData {
    fn put(&self, bits: &mut BitWriter) -> Option<()> {
        bits.put_flags([
            false,
            self.height.is_some(),
            self.bumpers.is_some(),
            self.mass.is_some(),
            self.trailer_weight.is_some(),
        ]);
        if let Some(height) = self.height {
            bits.put_ranged::<0, 127>(height)?;
        }
        if let Some((front, rear)) = self.bumpers {
            bits.put_ranged::<0, 127>(front)?;
            bits.put_ranged::<0, 127>(rear)?;
        }
        if let Some(mass) = self.mass {
            bits.put(8, mass.into());
        }
        match self.trailer_weight {
            Some(weight) => bits.put_ranged::<0, 64255>(weight),
            None => Some(()),
        }
    }

    fn take(bits: &mut BitReader) -> Option<Self> {
        let [is_extended, has_height, has_bumpers, has_mass, has_weight] = bits.take_flags()?;
        if is_extended {
            return None;
        }
        Some(VehicleData {
            height: bits.take_if(has_height, |bits| Some(bits.take(7)? as u8))?,
            bumpers: bits.take_if(has_bumpers, |bits| Some((bits.take(7)? as u8, bits.take(7)? as u8)))?,
            mass: bits.take_if(has_mass, |bits| Some(bits.take(8)? as u8))?,
            trailer_weight: bits.take_if(has_weight, |bits| Some(bits.take_ranged::<0, 64255>()? as u16))?,
        })
    }
}

/// WeatherReport
pub struct Weather {
    pub rain: Rain,
    pub rate: Option<u16>,
    pub situation: Option<Situation>,
    pub friction: Option<u8>,
    pub road_friction: Option<u8>,
}

enumerated! { Rain { Precip, NoPrecip, Error } }
enumerated! {
    /// Has an extension mark, and no items after it.
    Situation {
        Other, Unknown, NoPrecipitation, UnidentifiedSlight, UnidentifiedModerate, UnidentifiedHeavy,
        SnowSlight, SnowModerate, SnowHeavy, RainSlight, RainModerate, RainHeavy,
        FrozenSlight, FrozenModerate, FrozenHeavy,
    }
}

impl Weather {
    fn put(&self, bits: &mut BitWriter) -> Option<()> {
        bits.put_flags([
            false,
            self.rate.is_some(),
            self.situation.is_some(),
            self.friction.is_some(),
            self.road_friction.is_some(),
        ]);
        self.rain.put(bits);
        if let Some(rate) = self.rate {
            bits.put(16, rate.into());
        }
        if let Some(situation) = self.situation {
            bits.put(1, 0);
            situation.put(bits);
        }
        if let Some(friction) = self.friction {
            bits.put_ranged::<0, 101>(friction)?;
        }
        match self.road_friction {
            Some(friction) => bits.put_ranged::<0, 50>(friction),
            None => Some(()),
        }
    }

    fn take(bits: &mut BitReader) -> Option<Self> {
        let [is_extended, has_rate, has_situation, has_friction, has_road] = bits.take_flags()?;
        if is_extended {
            return None;
        }
        Some(Weather {
            rain: Rain::take(bits)?,
            rate: bits.take_if(has_rate, |bits| Some(bits.take(16)? as u16))?,
            situation: bits.take_if(has_situation, |bits| {
                bits.take_constant(1, 0)?;
                Situation::take(bits)
            })?,
            friction: bits.take_if(has_friction, |bits| Some(bits.take_ranged::<0, 101>()? as u8))?,
            road_friction: bits.take_if(has_road, |bits| Some(bits.take_ranged::<0, 50>()? as u8))?,
        })
    }
}

impl Bsm {
    /// A car that brakes on a wet road.
    pub fn sample() -> Self {
        let safety = Safety {
            events: Some(flags(13, 0b0_0000_0100_0000)),
            history: Some(History { status: None, crumbs: CRUMBS.iter().map(Crumb::sample).collect() }),
            prediction: Some(Prediction { radius: -4120, confidence: 180 }),
            lights: Some(flags(9, 0b1_0000_0000)),
        };
        let supplemental = Supplemental {
            classification: Some(20),
            vehicle: Some(VehicleData {
                height: Some(31),
                bumpers: Some((50, 52)),
                mass: Some(65),
                trailer_weight: None,
            }),
            weather: Some(Weather {
                rain: Rain::Precip,
                rate: Some(140),
                situation: Some(Situation::RainModerate),
                friction: Some(62),
                road_friction: None,
            }),
        };
        Bsm {
            core: Core::sample(),
            part_two: Some(vec![PartTwo::Safety(safety), PartTwo::Supplemental(supplemental)]),
            vehicle_id: Some(VehicleId::Station(2_718_281_828)),
            note: None,
        }
    }
}

/// The low bits, the highest first.
fn flags(count: u32, number: u32) -> Vec<bool> {
    (0..count).rev().map(|place| number >> place & 1 == 1).collect()
}

impl Core {
    fn sample() -> Self {
        Core {
            count: 83,
            id: [0x1c, 0xa5, 0x7e, 0x42],
            second: 36_217,
            latitude: 422_914_880,
            longitude: -837_380_123,
            elevation: 2_654,
            accuracy: Accuracy { major: 40, minor: 33, orientation: 8_190 },
            transmission: Transmission::Forward,
            speed: 723,
            heading: 21_345,
            angle: -4,
            acceleration: AccelerationSet { along: -310, across: 22, vertical: -2, yaw: -415 },
            brakes: Brakes {
                wheels: 0b01111,
                traction: Control::On,
                antilock: Control::Engaged,
                stability: Control::On,
                boost: Boost::Off,
                auxiliary: Auxiliary::Unavailable,
            },
            width: 187,
            length: 466,
        }
    }
}

impl Crumb {
    fn sample(row: &(i32, i32, i16, u16, u16)) -> Self {
        Crumb {
            latitude: row.0,
            longitude: row.1,
            elevation: row.2,
            time: row.3,
            speed: (row.4 != 0).then_some(row.4),
            accuracy: None,
            heading: None,
        }
    }
}
