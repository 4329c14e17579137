//! The message of `modules/cam.asn`, as a value of the same kinds as the proved crates have.
use crate::rows::PATH;
use crate::rules::{Reader, Writer};
use crate::value::{flags, integers, Value};

/// The octets, or `None` where this is no value of the type.
pub fn encode<W: Writer>(value: &Value) -> Option<Vec<u8>> {
    let [Some(header), Some(cam)] = value.entries()? else {
        return None;
    };
    let [Some(protocol), Some(message), Some(station)] = header.entries()? else {
        return None;
    };
    let [Some(time), Some(parameters)] = cam.entries()? else {
        return None;
    };
    let mut bits = W::with_capacity(512);
    bits.put_int::<0, 255>(protocol)?;
    bits.put_int::<0, 255>(message)?;
    bits.put_int::<0, 4294967295>(station)?;
    bits.put_int::<0, 65535>(time)?;
    put_parameters(&mut bits, parameters)?;
    Some(bits.finish())
}

/// The value, or `None` where the octets are no encoding of one.
pub fn decode<'a, R: Reader + From<&'a [u8]>>(octets: &'a [u8]) -> Option<Value> {
    let mut bits = R::from(octets);
    let header = Value::Seq(vec![
        Some(bits.take_int::<0, 255>()?),
        Some(bits.take_int::<0, 255>()?),
        Some(bits.take_int::<0, 4294967295>()?),
    ]);
    let time = bits.take_int::<0, 65535>()?;
    let parameters = take_parameters(&mut bits)?;
    let cam = Value::Seq(vec![Some(time), Some(parameters)]);
    let message = Value::Seq(vec![Some(header), Some(cam)]);
    bits.is_at_end().then_some(message)
}

/// Writes CamParameters.
fn put_parameters(bits: &mut impl Writer, value: &Value) -> Option<()> {
    let [Some(basic), Some(high), low, special, movement] = value.entries()? else {
        return None;
    };
    bits.put_preamble([movement.is_some(), low.is_some(), special.is_some()]);
    put_basic(bits, basic)?;
    put_high_frequency(bits, high)?;
    if let Some(low) = low {
        put_low_frequency(bits, low)?;
    }
    if let Some(special) = special {
        put_special(bits, special)?;
    }
    if let Some(movement) = movement {
        bits.put_additions([true]);
        bits.put_open(8, |bits| put_movement(bits, movement))?;
    }
    Some(())
}

fn take_parameters<R: Reader>(bits: &mut R) -> Option<Value> {
    let [has_addition, has_low, has_special] = bits.take_preamble()?;
    Some(Value::Seq(vec![
        Some(take_basic(bits)?),
        Some(take_high_frequency(bits)?),
        bits.take_if(has_low, take_low_frequency)?,
        bits.take_if(has_special, take_special)?,
        bits.take_if(has_addition, |bits| {
            bits.take_additions::<1>()?;
            bits.take_open(take_movement)
        })?,
    ]))
}

/// Writes MovementControl.
fn put_movement(bits: &mut impl Writer, value: &Value) -> Option<()> {
    let [accelerator, brake, Some(Value::Bool(automated))] = value.entries()? else {
        return None;
    };
    bits.put_preamble([false, accelerator.is_some(), brake.is_some(), *automated]);
    if let Some(pedal) = accelerator {
        bits.put_int::<0, 101>(pedal)?;
    }
    if let Some(pedal) = brake {
        bits.put_int::<0, 101>(pedal)?;
    }
    if *automated {
        bits.put_truth(true);
    }
    Some(())
}

fn take_movement<R: Reader>(bits: &mut R) -> Option<Value> {
    let [is_extended, has_accelerator, has_brake, automated] = bits.take_preamble()?;
    if is_extended {
        return None;
    }
    let accelerator = bits.take_if(has_accelerator, R::take_int::<0, 101>)?;
    let brake = bits.take_if(has_brake, R::take_int::<0, 101>)?;
    if automated && !bits.take_truth()? {
        return None;
    }
    Some(Value::Seq(vec![accelerator, brake, Some(Value::Bool(automated))]))
}

/// Writes BasicContainer.
fn put_basic(bits: &mut impl Writer, value: &Value) -> Option<()> {
    let [Some(station), Some(position)] = value.entries()? else {
        return None;
    };
    let [Some(latitude), Some(longitude), Some(ellipse), Some(altitude)] = position.entries()? else {
        return None;
    };
    let [Some(major), Some(minor), Some(orientation)] = ellipse.entries()? else {
        return None;
    };
    let [Some(altitude), Some(confidence)] = altitude.entries()? else {
        return None;
    };
    bits.put_preamble([false]);
    bits.put_int::<0, 255>(station)?;
    put_latitude(bits, latitude)?;
    put_longitude(bits, longitude)?;
    bits.put_int::<0, 4095>(major)?;
    bits.put_int::<0, 4095>(minor)?;
    bits.put_int::<0, 3601>(orientation)?;
    bits.put_int::<-100000, 800001>(altitude)?;
    bits.put_enum::<16>(confidence)
}

fn take_basic<R: Reader>(bits: &mut R) -> Option<Value> {
    let [is_extended] = bits.take_preamble()?;
    if is_extended {
        return None;
    }
    let station = bits.take_int::<0, 255>()?;
    let latitude = take_latitude(bits)?;
    let longitude = take_longitude(bits)?;
    let ellipse = Value::Seq(vec![
        Some(bits.take_int::<0, 4095>()?),
        Some(bits.take_int::<0, 4095>()?),
        Some(bits.take_int::<0, 3601>()?),
    ]);
    let altitude = Value::Seq(vec![Some(bits.take_int::<-100000, 800001>()?), Some(bits.take_enum::<16>()?)]);
    let position = Value::Seq(vec![Some(latitude), Some(longitude), Some(ellipse), Some(altitude)]);
    Some(Value::Seq(vec![Some(station), Some(position)]))
}

#[inline]
fn put_latitude(bits: &mut impl Writer, value: &Value) -> Option<()> {
    bits.put_int::<-900000000, 900000001>(value)
}

#[inline]
fn take_latitude<R: Reader>(bits: &mut R) -> Option<Value> {
    bits.take_int::<-900000000, 900000001>()
}

#[inline]
fn put_longitude(bits: &mut impl Writer, value: &Value) -> Option<()> {
    bits.put_int::<-1800000000, 1800000001>(value)
}

#[inline]
fn take_longitude<R: Reader>(bits: &mut R) -> Option<Value> {
    bits.take_int::<-1800000000, 1800000001>()
}

/// Writes HighFrequencyContainer.
fn put_high_frequency(bits: &mut impl Writer, value: &Value) -> Option<()> {
    match value {
        Value::Choice(0, vehicle) => {
            bits.put_marked_alternative::<2>(0);
            put_vehicle(bits, vehicle)
        }
        Value::Choice(1, rsu) => {
            bits.put_marked_alternative::<2>(1);
            let [zones] = rsu.entries()?;
            bits.put_preamble([false, zones.is_some()]);
            zones.as_ref().map_or(Some(()), |zones| put_zones(bits, zones))
        }
        _ => None,
    }
}

fn take_high_frequency<R: Reader>(bits: &mut R) -> Option<Value> {
    match bits.take_marked_alternative::<2, 2>()? {
        0 => Some(Value::Choice(0, Box::new(take_vehicle(bits)?))),
        _ => {
            let [is_extended, has_zones] = bits.take_preamble()?;
            if is_extended {
                return None;
            }
            let rsu = Value::Seq(vec![bits.take_if(has_zones, take_zones)?]);
            Some(Value::Choice(1, Box::new(rsu)))
        }
    }
}

/// Writes a SEQUENCE of a value from LOW to HIGH and its confidence from LEAST to MOST.
#[inline]
fn put_measured<const LOW: i64, const HIGH: i64, const LEAST: i64, const MOST: i64>(
    bits: &mut impl Writer,
    value: &Value,
) -> Option<()> {
    let [Some(value), Some(confidence)] = value.entries()? else {
        return None;
    };
    bits.put_int::<LOW, HIGH>(value)?;
    bits.put_int::<LEAST, MOST>(confidence)
}

#[inline]
fn take_measured<const LOW: i64, const HIGH: i64, const LEAST: i64, const MOST: i64>(
    bits: &mut impl Reader,
) -> Option<Value> {
    Some(Value::Seq(vec![Some(bits.take_int::<LOW, HIGH>()?), Some(bits.take_int::<LEAST, MOST>()?)]))
}

/// Writes a SEQUENCE of a value from LOW to HIGH and one of `ITEMS` confidences.
#[inline]
fn put_graded<const LOW: i64, const HIGH: i64, const ITEMS: i64>(
    bits: &mut impl Writer,
    value: &Value,
) -> Option<()> {
    let [Some(value), Some(confidence)] = value.entries()? else {
        return None;
    };
    bits.put_int::<LOW, HIGH>(value)?;
    bits.put_enum::<ITEMS>(confidence)
}

#[inline]
fn take_graded<const LOW: i64, const HIGH: i64, const ITEMS: i64>(bits: &mut impl Reader) -> Option<Value> {
    Some(Value::Seq(vec![Some(bits.take_int::<LOW, HIGH>()?), Some(bits.take_enum::<ITEMS>()?)]))
}

fn put_acceleration(bits: &mut impl Writer, value: &Value) -> Option<()> {
    put_measured::<-160, 161, 0, 102>(bits, value)
}

fn take_acceleration<R: Reader>(bits: &mut R) -> Option<Value> {
    take_measured::<-160, 161, 0, 102>(bits)
}

/// Writes VehicleHighFrequency.
fn put_vehicle(bits: &mut impl Writer, value: &Value) -> Option<()> {
    let [Some(heading), Some(speed), Some(direction), Some(length), Some(width), Some(along), Some(curvature), Some(mode), Some(yaw), control, lane, angle, lateral, vertical, class, zone] =
        value.entries()?
    else {
        return None;
    };
    bits.put_preamble([
        control.is_some(),
        lane.is_some(),
        angle.is_some(),
        lateral.is_some(),
        vertical.is_some(),
        class.is_some(),
        zone.is_some(),
    ]);
    put_measured::<0, 3601, 1, 127>(bits, heading)?;
    put_measured::<0, 16383, 1, 127>(bits, speed)?;
    bits.put_enum::<3>(direction)?;
    put_graded::<1, 1023, 5>(bits, length)?;
    bits.put_int::<1, 62>(width)?;
    put_acceleration(bits, along)?;
    put_graded::<-1023, 1023, 8>(bits, curvature)?;
    bits.put_marked_enum::<0, 3, 3>(mode)?;
    put_graded::<-32766, 32767, 9>(bits, yaw)?;
    if let Some(control) = control {
        bits.put_fixed_bits::<7>(control)?;
    }
    if let Some(lane) = lane {
        bits.put_int::<-1, 14>(lane)?;
    }
    if let Some(angle) = angle {
        put_measured::<-511, 512, 1, 127>(bits, angle)?;
    }
    if let Some(lateral) = lateral {
        put_acceleration(bits, lateral)?;
    }
    if let Some(vertical) = vertical {
        put_acceleration(bits, vertical)?;
    }
    if let Some(class) = class {
        bits.put_int::<0, 7>(class)?;
    }
    match zone {
        Some(zone) => put_tolling_zone(bits, zone),
        None => Some(()),
    }
}

fn take_vehicle<R: Reader>(bits: &mut R) -> Option<Value> {
    let [has_control, has_lane, has_angle, has_lateral, has_vertical, has_class, has_zone] =
        bits.take_preamble()?;
    Some(Value::Seq(vec![
        Some(take_measured::<0, 3601, 1, 127>(bits)?),
        Some(take_measured::<0, 16383, 1, 127>(bits)?),
        Some(bits.take_enum::<3>()?),
        Some(take_graded::<1, 1023, 5>(bits)?),
        Some(bits.take_int::<1, 62>()?),
        Some(take_acceleration(bits)?),
        Some(take_graded::<-1023, 1023, 8>(bits)?),
        Some(bits.take_marked_enum::<0, 3, 3>()?),
        Some(take_graded::<-32766, 32767, 9>(bits)?),
        bits.take_if(has_control, R::take_fixed_bits::<7>)?,
        bits.take_if(has_lane, R::take_int::<-1, 14>)?,
        bits.take_if(has_angle, take_measured::<-511, 512, 1, 127>)?,
        bits.take_if(has_lateral, take_acceleration)?,
        bits.take_if(has_vertical, take_acceleration)?,
        bits.take_if(has_class, R::take_int::<0, 7>)?,
        bits.take_if(has_zone, take_tolling_zone)?,
    ]))
}

/// Writes TollingZone.
fn put_tolling_zone(bits: &mut impl Writer, value: &Value) -> Option<()> {
    let [Some(latitude), Some(longitude), id] = value.entries()? else {
        return None;
    };
    bits.put_preamble([false, id.is_some()]);
    put_latitude(bits, latitude)?;
    put_longitude(bits, longitude)?;
    match id {
        Some(id) => bits.put_int::<0, 134217727>(id),
        None => Some(()),
    }
}

fn take_tolling_zone<R: Reader>(bits: &mut R) -> Option<Value> {
    let [is_extended, has_id] = bits.take_preamble()?;
    if is_extended {
        return None;
    }
    Some(Value::Seq(vec![
        Some(take_latitude(bits)?),
        Some(take_longitude(bits)?),
        bits.take_if(has_id, R::take_int::<0, 134217727>)?,
    ]))
}

/// Writes the zones of RsuHighFrequency.
fn put_zones(bits: &mut impl Writer, value: &Value) -> Option<()> {
    let Value::List(zones) = value else {
        return None;
    };
    bits.put_count::<1, 16>(zones.len())?;
    zones.iter().try_for_each(|zone| put_zone(bits, zone))
}

fn take_zones<R: Reader>(bits: &mut R) -> Option<Value> {
    let count = bits.take_count::<1, 16>()?;
    let mut zones = Vec::with_capacity(count);
    for _ in 0..count {
        zones.push(take_zone(bits)?);
    }
    Some(Value::List(zones))
}

/// Writes ProtectedZone.
fn put_zone(bits: &mut impl Writer, value: &Value) -> Option<()> {
    let [Some(kind), time, Some(latitude), Some(longitude), radius, id] = value.entries()? else {
        return None;
    };
    bits.put_preamble([false, time.is_some(), radius.is_some(), id.is_some()]);
    bits.put_marked_enum::<0, 1, 2>(kind)?;
    if let Some(time) = time {
        bits.put_int::<0, 4398046511103>(time)?;
    }
    put_latitude(bits, latitude)?;
    put_longitude(bits, longitude)?;
    if let Some(radius) = radius {
        bits.put_marked_int::<1, 255>(radius)?;
    }
    match id {
        Some(id) => bits.put_int::<0, 134217727>(id),
        None => Some(()),
    }
}

fn take_zone<R: Reader>(bits: &mut R) -> Option<Value> {
    let [is_extended, has_time, has_radius, has_id] = bits.take_preamble()?;
    if is_extended {
        return None;
    }
    Some(Value::Seq(vec![
        Some(bits.take_marked_enum::<0, 1, 2>()?),
        bits.take_if(has_time, R::take_int::<0, 4398046511103>)?,
        Some(take_latitude(bits)?),
        Some(take_longitude(bits)?),
        bits.take_if(has_radius, R::take_marked_int::<1, 255>)?,
        bits.take_if(has_id, R::take_int::<0, 134217727>)?,
    ]))
}

/// Writes LowFrequencyContainer.
fn put_low_frequency(bits: &mut impl Writer, value: &Value) -> Option<()> {
    let Value::Choice(0, vehicle) = value else {
        return None;
    };
    let [Some(role), Some(lights), Some(Value::List(path))] = vehicle.entries()? else {
        return None;
    };
    bits.put_marked_alternative::<1>(0);
    bits.put_enum::<16>(role)?;
    bits.put_fixed_bits::<8>(lights)?;
    bits.put_count::<0, 40>(path.len())?;
    path.iter().try_for_each(|point| put_point(bits, point))
}

fn take_low_frequency<R: Reader>(bits: &mut R) -> Option<Value> {
    bits.take_marked_alternative::<1, 1>()?;
    let role = bits.take_enum::<16>()?;
    let lights = bits.take_fixed_bits::<8>()?;
    let count = bits.take_count::<0, 40>()?;
    let mut path = Vec::with_capacity(count);
    for _ in 0..count {
        path.push(take_point(bits)?);
    }
    let vehicle = Value::Seq(vec![Some(role), Some(lights), Some(Value::List(path))]);
    Some(Value::Choice(0, Box::new(vehicle)))
}

/// Writes PathPoint.
fn put_point(bits: &mut impl Writer, value: &Value) -> Option<()> {
    let [Some(position), time] = value.entries()? else {
        return None;
    };
    let [Some(latitude), Some(longitude), Some(altitude)] = position.entries()? else {
        return None;
    };
    bits.put_preamble([time.is_some()]);
    bits.put_int::<-131071, 131072>(latitude)?;
    bits.put_int::<-131071, 131072>(longitude)?;
    bits.put_int::<-12700, 12800>(altitude)?;
    match time {
        Some(time) => bits.put_marked_int::<1, 65535>(time),
        None => Some(()),
    }
}

fn take_point<R: Reader>(bits: &mut R) -> Option<Value> {
    let [has_time] = bits.take_preamble()?;
    let position = Value::Seq(vec![
        Some(bits.take_int::<-131071, 131072>()?),
        Some(bits.take_int::<-131071, 131072>()?),
        Some(bits.take_int::<-12700, 12800>()?),
    ]);
    let time = bits.take_if(has_time, R::take_marked_int::<1, 65535>)?;
    Some(Value::Seq(vec![Some(position), time]))
}

/// Writes SpecialVehicleContainer.
fn put_special(bits: &mut impl Writer, value: &Value) -> Option<()> {
    match value {
        Value::Choice(0, transport) => {
            bits.put_marked_alternative::<2>(0);
            put_transport(bits, transport)
        }
        Value::Choice(1, emergency) => {
            bits.put_marked_alternative::<2>(1);
            put_emergency(bits, emergency)
        }
        _ => None,
    }
}

fn take_special<R: Reader>(bits: &mut R) -> Option<Value> {
    Some(match bits.take_marked_alternative::<2, 2>()? {
        0 => Value::Choice(0, Box::new(take_transport(bits)?)),
        _ => Value::Choice(1, Box::new(take_emergency(bits)?)),
    })
}

/// Writes PublicTransport.
fn put_transport(bits: &mut impl Writer, value: &Value) -> Option<()> {
    let [Some(embarkation), activation] = value.entries()? else {
        return None;
    };
    bits.put_preamble([activation.is_some()]);
    bits.put_bool(embarkation)?;
    let Some(activation) = activation else {
        return Some(());
    };
    let [Some(kind), Some(data)] = activation.entries()? else {
        return None;
    };
    bits.put_int::<0, 255>(kind)?;
    bits.put_octet_string::<1, 20>(data)
}

fn take_transport<R: Reader>(bits: &mut R) -> Option<Value> {
    let [has_activation] = bits.take_preamble()?;
    let embarkation = bits.take_bool()?;
    let activation = bits.take_if(has_activation, |bits| {
        Some(Value::Seq(vec![Some(bits.take_int::<0, 255>()?), Some(bits.take_octet_string::<1, 20>()?)]))
    })?;
    Some(Value::Seq(vec![Some(embarkation), activation]))
}

/// Writes Emergency.
fn put_emergency(bits: &mut impl Writer, value: &Value) -> Option<()> {
    let [Some(siren), incident, priority] = value.entries()? else {
        return None;
    };
    bits.put_preamble([incident.is_some(), priority.is_some()]);
    bits.put_fixed_bits::<2>(siren)?;
    if let Some(incident) = incident {
        bits.put_preamble([false]);
        put_measured::<0, 255, 0, 255>(bits, incident)?;
    }
    match priority {
        Some(priority) => bits.put_fixed_bits::<2>(priority),
        None => Some(()),
    }
}

fn take_emergency<R: Reader>(bits: &mut R) -> Option<Value> {
    let [has_incident, has_priority] = bits.take_preamble()?;
    Some(Value::Seq(vec![
        Some(bits.take_fixed_bits::<2>()?),
        bits.take_if(has_incident, |bits| {
            let [is_extended] = bits.take_preamble()?;
            if is_extended {
                return None;
            }
            take_measured::<0, 255, 0, 255>(bits)
        })?,
        bits.take_if(has_priority, R::take_fixed_bits::<2>)?,
    ]))
}

/// A car that follows a bend.
pub fn sample() -> Value {
    let low = low_sample(PATH.len());
    cam_of(chosen(0, vehicle_sample()), Some(chosen(0, low)), None, Some(movement_sample()))
}

/// Four messages of changing shape.
pub fn turns() -> Vec<Value> {
    let stops = chosen(0, low_sample(7));
    let transport = chosen(0, transport_sample());
    let emergency = chosen(1, emergency_sample());
    vec![
        sample(),
        cam_of(chosen(1, roadside_sample()), None, None, None),
        cam_of(chosen(0, bus_sample()), Some(stops), Some(transport), None),
        cam_of(chosen(0, vehicle_sample()), None, Some(emergency), Some(movement_sample())),
    ]
}

fn chosen(place: u32, value: Value) -> Value {
    Value::Choice(place, Box::new(value))
}

/// A message of these containers.
fn cam_of(high: Value, low: Option<Value>, special: Option<Value>, movement: Option<Value>) -> Value {
    let parameters = Value::Seq(vec![Some(basic_sample()), Some(high), low, special, movement]);
    let cam = vec![Some(Value::Int(43_981)), Some(parameters)];
    let header = integers([2, 2, 3_141_592_653]);
    Value::Seq(vec![Some(header), Some(Value::Seq(cam))])
}

fn movement_sample() -> Value {
    Value::Seq(vec![Some(Value::Int(23)), Some(Value::Int(0)), Some(Value::Bool(true))])
}

fn roadside_sample() -> Value {
    let zone = |kind: u32, time: Option<i128>, place: [i128; 2], radius: Option<i128>, id: Option<i128>| {
        Value::Seq(vec![
            Some(Value::Enum(kind)),
            time.map(Value::Int),
            Some(Value::Int(place[0])),
            Some(Value::Int(place[1])),
            radius.map(Value::Int),
            id.map(Value::Int),
        ])
    };
    let zones = vec![
        zone(0, None, [482_173_921, 114_096_338], None, None),
        zone(1, Some(500_000_000_000), [482_180_000, 114_100_000], Some(200), Some(77)),
        zone(0, None, [482_190_000, 114_110_000], Some(300), None),
    ];
    Value::Seq(vec![Some(Value::List(zones))])
}

fn bus_sample() -> Value {
    let mut entries = vec![
        Some(integers([1713, 12])),
        Some(integers([0, 3])),
        Some(Value::Enum(0)),
        Some(graded(120, 0)),
        Some(Value::Int(25)),
        Some(integers([0, 4])),
        Some(graded(0, 3)),
        Some(Value::Enum(1)),
        Some(graded(12, 2)),
    ];
    entries.extend((0..6).map(|_| None));
    entries.push(Some(integers([482_173_921, 114_096_338, 4711])));
    Value::Seq(entries)
}

fn transport_sample() -> Value {
    let data = Value::Octets(vec![0x52, 0x30, 0x39, 0x10, 0x42, 0x07]);
    let activation = vec![Some(Value::Int(3)), Some(data)];
    Value::Seq(vec![Some(Value::Bool(true)), Some(Value::Seq(activation))])
}

fn emergency_sample() -> Value {
    Value::Seq(vec![Some(flags(2, 0b10)), Some(integers([14, 2])), None])
}

fn basic_sample() -> Value {
    let position = vec![
        Some(Value::Int(482_173_921)),
        Some(Value::Int(114_096_338)),
        Some(integers([125, 98, 713])),
        Some(graded(51_240, 7)),
    ];
    Value::Seq(vec![Some(Value::Int(5)), Some(Value::Seq(position))])
}

fn graded(number: i128, confidence: u32) -> Value {
    Value::Seq(vec![Some(Value::Int(number)), Some(Value::Enum(confidence))])
}

fn vehicle_sample() -> Value {
    Value::Seq(vec![
        Some(integers([713, 10])),
        Some(integers([1389, 5])),
        Some(Value::Enum(0)),
        Some(graded(44, 0)),
        Some(Value::Int(18)),
        Some(integers([-12, 4])),
        Some(graded(-37, 3)),
        Some(Value::Enum(0)),
        Some(graded(-412, 2)),
        Some(flags(7, 0b0100_000)),
        Some(Value::Int(2)),
        Some(integers([-31, 2])),
        Some(integers([8, 4])),
        Some(integers([1, 6])),
        Some(Value::Int(2)),
        None,
    ])
}

fn low_sample(points: usize) -> Value {
    let path = PATH.iter().take(points).map(|(latitude, longitude, altitude, time)| {
        let position = integers([i64::from(*latitude), i64::from(*longitude), i64::from(*altitude)]);
        let time = (*time != 0).then_some(Value::Int((*time).into()));
        Value::Seq(vec![Some(position), time])
    });
    Value::Seq(vec![Some(Value::Enum(0)), Some(flags(8, 0b1000_1000)), Some(Value::List(path.collect()))])
}
