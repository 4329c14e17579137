//! The message of `modules/cam.asn`, as structs.
use super::enumerated::enumerated;
use crate::bits::{BitReader, BitWriter};
use crate::rows::PATH;

/// CAM, its header and the time that follows it.
pub struct Cam {
    pub protocol_version: u8,
    pub message_id: u8,
    pub station_id: u32,
    pub generation_delta_time: u16,
    pub basic: Basic,
    pub high_frequency: HighFrequency,
    pub low_frequency: Option<VehicleLow>,
    pub special: Option<Special>,
    pub movement: Option<Movement>,
}

impl Cam {
    /// The octets, or `None` where something is out of its range.
    pub fn encode(&self) -> Option<Vec<u8>> {
        let mut bits = BitWriter::with_capacity(512);
        bits.put(8, self.protocol_version.into());
        bits.put(8, self.message_id.into());
        bits.put(32, self.station_id.into());
        bits.put(16, self.generation_delta_time.into());
        bits.put_flags([self.movement.is_some(), self.low_frequency.is_some(), self.special.is_some()]);
        self.basic.put(&mut bits)?;
        self.high_frequency.put(&mut bits)?;
        if let Some(low) = &self.low_frequency {
            bits.put(1, 0);
            low.put(&mut bits)?;
        }
        if let Some(special) = &self.special {
            special.put(&mut bits)?;
        }
        if let Some(movement) = &self.movement {
            bits.put(8, 1);
            let mut content = BitWriter::with_capacity(8);
            movement.put(&mut content)?;
            bits.put_open(content);
        }
        Some(bits.finish())
    }

    /// The message, or `None` where the octets are no encoding of one.
    pub fn decode(octets: &[u8]) -> Option<Self> {
        let mut bits = BitReader::new(octets);
        let protocol_version = bits.take(8)? as u8;
        let message_id = bits.take(8)? as u8;
        let station_id = bits.take(32)? as u32;
        let generation_delta_time = bits.take(16)? as u16;
        let [has_addition, has_low, has_special] = bits.take_flags()?;
        let message = Cam {
            protocol_version,
            message_id,
            station_id,
            generation_delta_time,
            basic: Basic::take(&mut bits)?,
            high_frequency: HighFrequency::take(&mut bits)?,
            low_frequency: bits.take_if(has_low, |bits| {
                bits.take_constant(1, 0)?;
                VehicleLow::take(bits)
            })?,
            special: bits.take_if(has_special, Special::take)?,
            movement: bits.take_if(has_addition, |bits| {
                bits.take_constant(8, 1)?;
                bits.take_open(Movement::take)
            })?,
        };
        bits.is_at_end().then_some(message)
    }
}

/// BasicContainer with its ReferencePosition.
pub struct Basic {
    pub station_type: u8,
    pub latitude: i32,
    pub longitude: i32,
    pub semi_major: u16,
    pub semi_minor: u16,
    pub orientation: u16,
    pub altitude: i32,
    pub altitude_confidence: AltitudeConfidence,
}

enumerated! {
    /// In metres, the unit first.
    AltitudeConfidence {
        Cm1, Cm2, Cm5, Cm10, Cm20, Cm50, M1, M2, M5, M10, M20, M50, M100, M200, OutOfRange, Unavailable,
    }
}

impl Basic {
    fn put(&self, bits: &mut BitWriter) -> Option<()> {
        bits.put(1, 0);
        bits.put(8, self.station_type.into());
        put_position(bits, self.latitude, self.longitude)?;
        bits.put_ranged::<0, 4095>(self.semi_major)?;
        bits.put_ranged::<0, 4095>(self.semi_minor)?;
        bits.put_ranged::<0, 3601>(self.orientation)?;
        bits.put_ranged::<-100000, 800001>(self.altitude)?;
        self.altitude_confidence.put(bits);
        Some(())
    }

    fn take(bits: &mut BitReader) -> Option<Self> {
        bits.take_constant(1, 0)?;
        let station_type = bits.take(8)? as u8;
        let (latitude, longitude) = take_position(bits)?;
        Some(Basic {
            station_type,
            latitude,
            longitude,
            semi_major: bits.take_ranged::<0, 4095>()? as u16,
            semi_minor: bits.take_ranged::<0, 4095>()? as u16,
            orientation: bits.take_ranged::<0, 3601>()? as u16,
            altitude: bits.take_ranged::<-100000, 800001>()? as i32,
            altitude_confidence: AltitudeConfidence::take(bits)?,
        })
    }
}

fn put_position(bits: &mut BitWriter, latitude: i32, longitude: i32) -> Option<()> {
    bits.put_ranged::<-900000000, 900000001>(latitude)?;
    bits.put_ranged::<-1800000000, 1800000001>(longitude)
}

fn take_position(bits: &mut BitReader) -> Option<(i32, i32)> {
    let latitude = bits.take_ranged::<-900000000, 900000001>()? as i32;
    let longitude = bits.take_ranged::<-1800000000, 1800000001>()? as i32;
    Some((latitude, longitude))
}

/// HighFrequencyContainer
pub enum HighFrequency {
    Vehicle(VehicleHigh),
    Rsu(Option<Vec<ProtectedZone>>),
}

impl HighFrequency {
    fn put(&self, bits: &mut BitWriter) -> Option<()> {
        match self {
            HighFrequency::Vehicle(vehicle) => {
                bits.put(2, 0);
                vehicle.put(bits)
            }
            HighFrequency::Rsu(zones) => {
                bits.put(2, 1);
                bits.put_flags([false, zones.is_some()]);
                zones.as_ref().map_or(Some(()), |zones| put_zones(bits, zones))
            }
        }
    }

    fn take(bits: &mut BitReader) -> Option<Self> {
        match bits.take(2)? {
            0 => Some(HighFrequency::Vehicle(VehicleHigh::take(bits)?)),
            1 => {
                let [is_extended, has_zones] = bits.take_flags()?;
                if is_extended {
                    return None;
                }
                Some(HighFrequency::Rsu(bits.take_if(has_zones, take_zones)?))
            }
            _ => None,
        }
    }
}

/// A value from LOW to HIGH, and its confidence from LEAST to MOST.
pub struct Measured<const LOW: i64, const HIGH: i64, const LEAST: i64, const MOST: i64> {
    pub value: i16,
    pub confidence: u8,
}

pub type Heading = Measured<0, 3601, 1, 127>;
pub type Speed = Measured<0, 16383, 1, 127>;
pub type Acceleration = Measured<-160, 161, 0, 102>;
pub type SteeringWheelAngle = Measured<-511, 512, 1, 127>;

impl<const LOW: i64, const HIGH: i64, const LEAST: i64, const MOST: i64> Measured<LOW, HIGH, LEAST, MOST> {
    #[inline]
    fn put(&self, bits: &mut BitWriter) -> Option<()> {
        bits.put_ranged::<LOW, HIGH>(self.value)?;
        bits.put_ranged::<LEAST, MOST>(self.confidence)
    }

    #[inline]
    fn take(bits: &mut BitReader) -> Option<Self> {
        Some(Measured {
            value: bits.take_ranged::<LOW, HIGH>()? as i16,
            confidence: bits.take_ranged::<LEAST, MOST>()? as u8,
        })
    }
}

/// VehicleHighFrequency
pub struct VehicleHigh {
    pub heading: Heading,
    pub speed: Speed,
    pub drive_direction: DriveDirection,
    pub length: u16,
    pub trailer: Trailer,
    pub width: u8,
    pub longitudinal_acceleration: Acceleration,
    pub curvature: i16,
    pub curvature_confidence: CurvatureConfidence,
    pub curvature_mode: CurvatureMode,
    pub yaw_rate: i16,
    pub yaw_rate_confidence: YawRateConfidence,
    /// the low seven bits, the first of them the highest
    pub acceleration_control: Option<u8>,
    pub lane_position: Option<i8>,
    pub steering_wheel_angle: Option<SteeringWheelAngle>,
    pub lateral_acceleration: Option<Acceleration>,
    pub vertical_acceleration: Option<Acceleration>,
    pub performance_class: Option<u8>,
    pub tolling_zone: Option<TollingZone>,
}

enumerated! { DriveDirection { Forward, Backward, Unavailable } }
enumerated! { Trailer { None, KnownLength, UnknownLength, PresenceUnknown, Unavailable } }
enumerated! {
    CurvatureConfidence { M00002, M0001, M0005, M002, M01, M1, OutOfRange, Unavailable }
}
enumerated! {
    /// Has an extension mark, and no items after it.
    CurvatureMode { YawRateUsed, YawRateNotUsed, Unavailable }
}
enumerated! {
    /// In hundredths of a degree in a second.
    YawRateConfidence { D1, D5, D10, D100, D500, D1000, D10000, OutOfRange, Unavailable }
}

impl VehicleHigh {
    fn put(&self, bits: &mut BitWriter) -> Option<()> {
        bits.put_flags([
            self.acceleration_control.is_some(),
            self.lane_position.is_some(),
            self.steering_wheel_angle.is_some(),
            self.lateral_acceleration.is_some(),
            self.vertical_acceleration.is_some(),
            self.performance_class.is_some(),
            self.tolling_zone.is_some(),
        ]);
        self.heading.put(bits)?;
        self.speed.put(bits)?;
        self.drive_direction.put(bits);
        bits.put_ranged::<1, 1023>(self.length)?;
        self.trailer.put(bits);
        bits.put_ranged::<1, 62>(self.width)?;
        self.longitudinal_acceleration.put(bits)?;
        bits.put_ranged::<-1023, 1023>(self.curvature)?;
        self.curvature_confidence.put(bits);
        bits.put(1, 0);
        self.curvature_mode.put(bits);
        bits.put_ranged::<-32766, 32767>(self.yaw_rate)?;
        self.yaw_rate_confidence.put(bits);
        self.put_optional(bits)
    }

    fn put_optional(&self, bits: &mut BitWriter) -> Option<()> {
        if let Some(control) = self.acceleration_control {
            bits.put_ranged::<0, 127>(control)?;
        }
        if let Some(lane) = self.lane_position {
            bits.put_ranged::<-1, 14>(lane)?;
        }
        if let Some(angle) = &self.steering_wheel_angle {
            angle.put(bits)?;
        }
        if let Some(acceleration) = &self.lateral_acceleration {
            acceleration.put(bits)?;
        }
        if let Some(acceleration) = &self.vertical_acceleration {
            acceleration.put(bits)?;
        }
        if let Some(class) = self.performance_class {
            bits.put_ranged::<0, 7>(class)?;
        }
        if let Some(zone) = &self.tolling_zone {
            zone.put(bits)?;
        }
        Some(())
    }

    fn take(bits: &mut BitReader) -> Option<Self> {
        let [has_control, has_lane, has_angle, has_lateral, has_vertical, has_class, has_zone] =
            bits.take_flags()?;
        Some(VehicleHigh {
            heading: Heading::take(bits)?,
            speed: Speed::take(bits)?,
            drive_direction: DriveDirection::take(bits)?,
            length: bits.take_ranged::<1, 1023>()? as u16,
            trailer: Trailer::take(bits)?,
            width: bits.take_ranged::<1, 62>()? as u8,
            longitudinal_acceleration: Acceleration::take(bits)?,
            curvature: bits.take_ranged::<-1023, 1023>()? as i16,
            curvature_confidence: CurvatureConfidence::take(bits)?,
            curvature_mode: {
                bits.take_constant(1, 0)?;
                CurvatureMode::take(bits)?
            },
            yaw_rate: bits.take_ranged::<-32766, 32767>()? as i16,
            yaw_rate_confidence: YawRateConfidence::take(bits)?,
            acceleration_control: bits.take_if(has_control, |bits| Some(bits.take(7)? as u8))?,
            lane_position: bits.take_if(has_lane, |bits| Some(bits.take_ranged::<-1, 14>()? as i8))?,
            steering_wheel_angle: bits.take_if(has_angle, SteeringWheelAngle::take)?,
            lateral_acceleration: bits.take_if(has_lateral, Acceleration::take)?,
            vertical_acceleration: bits.take_if(has_vertical, Acceleration::take)?,
            performance_class: bits.take_if(has_class, |bits| Some(bits.take(3)? as u8))?,
            tolling_zone: bits.take_if(has_zone, TollingZone::take)?,
        })
    }
}

/// TollingZone
pub struct TollingZone {
    pub latitude: i32,
    pub longitude: i32,
    pub zone_id: Option<u32>,
}

impl TollingZone {
    fn put(&self, bits: &mut BitWriter) -> Option<()> {
        bits.put_flags([false, self.zone_id.is_some()]);
        put_position(bits, self.latitude, self.longitude)?;
        match self.zone_id {
            Some(id) => bits.put_ranged::<0, 134217727>(id),
            None => Some(()),
        }
    }

    fn take(bits: &mut BitReader) -> Option<Self> {
        let [is_extended, has_id] = bits.take_flags()?;
        if is_extended {
            return None;
        }
        let (latitude, longitude) = take_position(bits)?;
        Some(TollingZone {
            latitude,
            longitude,
            zone_id: bits.take_if(has_id, |bits| Some(bits.take(27)? as u32))?,
        })
    }
}

/// ProtectedZone
pub struct ProtectedZone {
    /// the item after the extension mark
    pub is_temporary: bool,
    pub expiry_time: Option<u64>,
    pub latitude: i32,
    pub longitude: i32,
    pub radius: Option<i64>,
    pub zone_id: Option<u32>,
}

fn put_zones(bits: &mut BitWriter, zones: &[ProtectedZone]) -> Option<()> {
    bits.put_ranged::<1, 16>(i64::try_from(zones.len()).ok()?)?;
    zones.iter().try_for_each(|zone| zone.put(bits))
}

fn take_zones(bits: &mut BitReader) -> Option<Vec<ProtectedZone>> {
    let count = bits.take_ranged::<1, 16>()?;
    (0..count).map(|_| ProtectedZone::take(bits)).collect()
}

impl ProtectedZone {
    fn put(&self, bits: &mut BitWriter) -> Option<()> {
        bits.put_flags([false, self.expiry_time.is_some(), self.radius.is_some(), self.zone_id.is_some()]);
        match self.is_temporary {
            true => bits.put(8, 1 << 7),
            false => bits.put(1, 0),
        }
        if let Some(time) = self.expiry_time {
            bits.put_ranged::<0, 4398046511103>(i64::try_from(time).ok()?)?;
        }
        put_position(bits, self.latitude, self.longitude)?;
        if let Some(radius) = self.radius {
            bits.put_marked::<1, 255>(radius);
        }
        match self.zone_id {
            Some(id) => bits.put_ranged::<0, 134217727>(id),
            None => Some(()),
        }
    }

    fn take(bits: &mut BitReader) -> Option<Self> {
        let [is_extended, has_time, has_radius, has_id] = bits.take_flags()?;
        if is_extended {
            return None;
        }
        let is_temporary = bits.take_flag()?;
        if is_temporary {
            bits.take_constant(7, 0)?;
        }
        let expiry_time = bits.take_if(has_time, |bits| bits.take(42))?;
        let (latitude, longitude) = take_position(bits)?;
        Some(ProtectedZone {
            is_temporary,
            expiry_time,
            latitude,
            longitude,
            radius: bits.take_if(has_radius, BitReader::take_marked::<1, 255>)?,
            zone_id: bits.take_if(has_id, |bits| Some(bits.take(27)? as u32))?,
        })
    }
}

/// VehicleLowFrequency
pub struct VehicleLow {
    pub role: VehicleRole,
    /// the first bit is the highest
    pub exterior_lights: u8,
    pub path: Vec<PathPoint>,
}

enumerated! {
    VehicleRole {
        Default, PublicTransport, SpecialTransport, DangerousGoods, RoadWork, Rescue, Emergency, SafetyCar,
        Agriculture, Commercial, Military, RoadOperator, Taxi, Reserved1, Reserved2, Reserved3,
    }
}

impl VehicleLow {
    fn put(&self, bits: &mut BitWriter) -> Option<()> {
        self.role.put(bits);
        bits.put(8, self.exterior_lights.into());
        bits.put_ranged::<0, 40>(i64::try_from(self.path.len()).ok()?)?;
        self.path.iter().try_for_each(|point| point.put(bits))
    }

    fn take(bits: &mut BitReader) -> Option<Self> {
        let role = VehicleRole::take(bits)?;
        let exterior_lights = bits.take(8)? as u8;
        let count = bits.take_ranged::<0, 40>()? as usize;
        let mut path = Vec::with_capacity(count);
        for _ in 0..count {
            path.push(PathPoint::take(bits)?);
        }
        Some(VehicleLow { role, exterior_lights, path })
    }
}

/// PathPoint
pub struct PathPoint {
    pub latitude: i32,
    pub longitude: i32,
    pub altitude: i16,
    pub time: Option<i64>,
}

impl PathPoint {
    fn put(&self, bits: &mut BitWriter) -> Option<()> {
        bits.put(1, u64::from(self.time.is_some()));
        bits.put_ranged::<-131071, 131072>(self.latitude)?;
        bits.put_ranged::<-131071, 131072>(self.longitude)?;
        bits.put_ranged::<-12700, 12800>(self.altitude)?;
        if let Some(time) = self.time {
            bits.put_marked::<1, 65535>(time);
        }
        Some(())
    }

    fn take(bits: &mut BitReader) -> Option<Self> {
        let has_time = bits.take_flag()?;
        Some(PathPoint {
            latitude: bits.take_ranged::<-131071, 131072>()? as i32,
            longitude: bits.take_ranged::<-131071, 131072>()? as i32,
            altitude: bits.take_ranged::<-12700, 12800>()? as i16,
            time: bits.take_if(has_time, BitReader::take_marked::<1, 65535>)?,
        })
    }
}

/// SpecialVehicleContainer
pub enum Special {
    PublicTransport(PublicTransport),
    Emergency(Emergency),
}

/// PublicTransport with its PtActivation.
pub struct PublicTransport {
    pub embarkation: bool,
    pub activation: Option<(u8, Vec<u8>)>,
}

/// Emergency; of each pair of bits the first is the higher.
pub struct Emergency {
    pub siren: u8,
    /// cause and cause below it
    pub incident: Option<(u8, u8)>,
    pub priority: Option<u8>,
}

impl Special {
    fn put(&self, bits: &mut BitWriter) -> Option<()> {
        match self {
            Special::PublicTransport(transport) => {
                bits.put(2, 0);
                transport.put(bits)
            }
            Special::Emergency(emergency) => {
                bits.put(2, 1);
                emergency.put(bits)
            }
        }
    }

    fn take(bits: &mut BitReader) -> Option<Self> {
        match bits.take(2)? {
            0 => Some(Special::PublicTransport(PublicTransport::take(bits)?)),
            1 => Some(Special::Emergency(Emergency::take(bits)?)),
            _ => None,
        }
    }
}

impl PublicTransport {
    fn put(&self, bits: &mut BitWriter) -> Option<()> {
        bits.put_flags([self.activation.is_some(), self.embarkation]);
        if let Some((kind, data)) = &self.activation {
            bits.put(8, u64::from(*kind));
            bits.put_ranged::<1, 20>(i64::try_from(data.len()).ok()?)?;
            bits.put_octets(data);
        }
        Some(())
    }

    fn take(bits: &mut BitReader) -> Option<Self> {
        let [has_activation, embarkation] = bits.take_flags()?;
        let activation = bits.take_if(has_activation, |bits| {
            let kind = bits.take(8)? as u8;
            let length = bits.take_ranged::<1, 20>()?;
            Some((kind, bits.take_octets(length as usize)?))
        })?;
        Some(PublicTransport { embarkation, activation })
    }
}

impl Emergency {
    fn put(&self, bits: &mut BitWriter) -> Option<()> {
        bits.put_flags([self.incident.is_some(), self.priority.is_some()]);
        bits.put_ranged::<0, 3>(self.siren)?;
        if let Some((cause, below)) = self.incident {
            bits.put(1, 0);
            bits.put(8, cause.into());
            bits.put(8, below.into());
        }
        match self.priority {
            Some(priority) => bits.put_ranged::<0, 3>(priority),
            None => Some(()),
        }
    }

    fn take(bits: &mut BitReader) -> Option<Self> {
        let [has_incident, has_priority] = bits.take_flags()?;
        Some(Emergency {
            siren: bits.take(2)? as u8,
            incident: bits.take_if(has_incident, |bits| {
                bits.take_constant(1, 0)?;
                Some((bits.take(8)? as u8, bits.take(8)? as u8))
            })?,
            priority: bits.take_if(has_priority, |bits| Some(bits.take(2)? as u8))?,
        })
    }
}

/// MovementControl
pub struct Movement {
    pub accelerator: Option<u8>,
    pub brake: Option<u8>,
    pub automated: bool,
}

impl Movement {
    fn put(&self, bits: &mut BitWriter) -> Option<()> {
        bits.put_flags([false, self.accelerator.is_some(), self.brake.is_some(), self.automated]);
        if let Some(pedal) = self.accelerator {
            bits.put_ranged::<0, 101>(pedal)?;
        }
        if let Some(pedal) = self.brake {
            bits.put_ranged::<0, 101>(pedal)?;
        }
        if self.automated {
            bits.put(1, 1);
        }
        Some(())
    }

    fn take(bits: &mut BitReader) -> Option<Self> {
        let [is_extended, has_accelerator, has_brake, automated] = bits.take_flags()?;
        if is_extended {
            return None;
        }
        let pedal = |bits: &mut BitReader| Some(bits.take_ranged::<0, 101>()? as u8);
        let accelerator = bits.take_if(has_accelerator, pedal)?;
        let brake = bits.take_if(has_brake, pedal)?;
        if automated {
            bits.take_constant(1, 1)?;
        }
        Some(Movement { accelerator, brake, automated })
    }
}

impl Cam {
    /// A car that follows a bend.
    pub fn sample() -> Self {
        Cam {
            protocol_version: 2,
            message_id: 2,
            station_id: 3_141_592_653,
            generation_delta_time: 43_981,
            basic: Basic {
                station_type: 5,
                latitude: 482_173_921,
                longitude: 114_096_338,
                semi_major: 125,
                semi_minor: 98,
                orientation: 713,
                altitude: 51_240,
                altitude_confidence: AltitudeConfidence::M2,
            },
            high_frequency: HighFrequency::Vehicle(VehicleHigh::sample()),
            low_frequency: Some(VehicleLow {
                role: VehicleRole::Default,
                exterior_lights: 0b1000_1000,
                path: PATH.iter().map(PathPoint::sample).collect(),
            }),
            special: None,
            movement: Some(Movement { accelerator: Some(23), brake: Some(0), automated: true }),
        }
    }
}

impl VehicleHigh {
    fn sample() -> Self {
        VehicleHigh {
            heading: Measured { value: 713, confidence: 10 },
            speed: Measured { value: 1389, confidence: 5 },
            drive_direction: DriveDirection::Forward,
            length: 44,
            trailer: Trailer::None,
            width: 18,
            longitudinal_acceleration: Measured { value: -12, confidence: 4 },
            curvature: -37,
            curvature_confidence: CurvatureConfidence::M002,
            curvature_mode: CurvatureMode::YawRateUsed,
            yaw_rate: -412,
            yaw_rate_confidence: YawRateConfidence::D10,
            acceleration_control: Some(0b0100_000),
            lane_position: Some(2),
            steering_wheel_angle: Some(Measured { value: -31, confidence: 2 }),
            lateral_acceleration: Some(Measured { value: 8, confidence: 4 }),
            vertical_acceleration: Some(Measured { value: 1, confidence: 6 }),
            performance_class: Some(2),
            tolling_zone: None,
        }
    }
}

impl PathPoint {
    fn sample(row: &(i32, i32, i16, i64)) -> Self {
        PathPoint { latitude: row.0, longitude: row.1, altitude: row.2, time: (row.3 != 0).then_some(row.3) }
    }
}
