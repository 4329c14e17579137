//! The message of `modules/bsm.asn`, as a value of the same kinds as the proved crates have.
use crate::rows::CRUMBS;
use crate::rules::{Reader, Writer};
use crate::value::{flags, integers, Value};

/// The octets, or `None` where this is no value of the type.
pub fn encode<W: Writer>(value: &Value) -> Option<Vec<u8>> {
    let [Some(core), parts, id, note] = value.entries()? else {
        return None;
    };
    let mut bits = W::with_capacity(512);
    let is_extended = id.is_some() || note.is_some();
    bits.put_preamble([is_extended, parts.is_some()]);
    put_core(&mut bits, core)?;
    if let Some(parts) = parts {
        let Value::List(parts) = parts else {
            return None;
        };
        bits.put_count::<1, 8>(parts.len())?;
        parts.iter().try_for_each(|part| put_part(&mut bits, part))?;
    }
    if is_extended {
        bits.put_additions([id.is_some(), note.is_some()]);
    }
    if let Some(id) = id {
        bits.put_open(8, |bits| put_id(bits, id))?;
    }
    if let Some(note) = note {
        bits.put_open(64, |bits| bits.put_ia5::<1, 63>(note))?;
    }
    Some(bits.finish())
}

/// The value, or `None` where the octets are no encoding of one.
pub fn decode<'a, R: Reader + From<&'a [u8]>>(octets: &'a [u8]) -> Option<Value> {
    let mut bits = R::from(octets);
    let [is_extended, has_parts] = bits.take_preamble()?;
    let core = take_core(&mut bits)?;
    let parts = bits.take_if(has_parts, take_parts)?;
    let mut has_id = false;
    let mut has_note = false;
    if is_extended {
        [has_id, has_note] = bits.take_additions()?;
    }
    let id = bits.take_if(has_id, |bits| bits.take_open(take_id))?;
    let note = bits.take_if(has_note, |bits| bits.take_open(R::take_ia5::<1, 63>))?;
    let message = Value::Seq(vec![Some(core), parts, id, note]);
    bits.is_at_end().then_some(message)
}

fn take_parts<R: Reader>(bits: &mut R) -> Option<Value> {
    let count = bits.take_count::<1, 8>()?;
    let mut parts = Vec::with_capacity(count);
    for _ in 0..count {
        parts.push(take_part(bits)?);
    }
    Some(Value::List(parts))
}

/// Writes BSMcoreData.
fn put_core(bits: &mut impl Writer, value: &Value) -> Option<()> {
    let [Some(count), Some(id), Some(second), Some(latitude), Some(longitude), Some(elevation), Some(accuracy), Some(transmission), Some(speed), Some(heading), Some(angle), Some(acceleration), Some(brakes), Some(size)] =
        value.entries()?
    else {
        return None;
    };
    bits.put_int::<0, 127>(count)?;
    bits.put_four_octets(id)?;
    bits.put_int::<0, 65535>(second)?;
    bits.put_int::<-900000000, 900000001>(latitude)?;
    bits.put_int::<-1799999999, 1800000001>(longitude)?;
    bits.put_int::<-4096, 61439>(elevation)?;
    put_accuracy(bits, accuracy)?;
    bits.put_enum::<8>(transmission)?;
    bits.put_int::<0, 8191>(speed)?;
    bits.put_int::<0, 28800>(heading)?;
    bits.put_int::<-126, 127>(angle)?;
    put_acceleration(bits, acceleration)?;
    put_brakes(bits, brakes)?;
    let [Some(width), Some(length)] = size.entries()? else {
        return None;
    };
    bits.put_int::<0, 1023>(width)?;
    bits.put_int::<0, 4095>(length)
}

fn take_core<R: Reader>(bits: &mut R) -> Option<Value> {
    Some(Value::Seq(vec![
        Some(bits.take_int::<0, 127>()?),
        Some(bits.take_four_octets()?),
        Some(bits.take_int::<0, 65535>()?),
        Some(bits.take_int::<-900000000, 900000001>()?),
        Some(bits.take_int::<-1799999999, 1800000001>()?),
        Some(bits.take_int::<-4096, 61439>()?),
        Some(take_accuracy(bits)?),
        Some(bits.take_enum::<8>()?),
        Some(bits.take_int::<0, 8191>()?),
        Some(bits.take_int::<0, 28800>()?),
        Some(bits.take_int::<-126, 127>()?),
        Some(take_acceleration(bits)?),
        Some(take_brakes(bits)?),
        Some(Value::Seq(vec![Some(bits.take_int::<0, 1023>()?), Some(bits.take_int::<0, 4095>()?)])),
    ]))
}

/// Writes PositionalAccuracy.
fn put_accuracy(bits: &mut impl Writer, value: &Value) -> Option<()> {
    let [Some(major), Some(minor), Some(orientation)] = value.entries()? else {
        return None;
    };
    bits.put_int::<0, 255>(major)?;
    bits.put_int::<0, 255>(minor)?;
    bits.put_int::<0, 65535>(orientation)
}

fn take_accuracy<R: Reader>(bits: &mut R) -> Option<Value> {
    Some(Value::Seq(vec![
        Some(bits.take_int::<0, 255>()?),
        Some(bits.take_int::<0, 255>()?),
        Some(bits.take_int::<0, 65535>()?),
    ]))
}

/// Writes AccelerationSet4Way.
fn put_acceleration(bits: &mut impl Writer, value: &Value) -> Option<()> {
    let [Some(along), Some(across), Some(vertical), Some(yaw)] = value.entries()? else {
        return None;
    };
    bits.put_int::<-2000, 2001>(along)?;
    bits.put_int::<-2000, 2001>(across)?;
    bits.put_int::<-127, 127>(vertical)?;
    bits.put_int::<-32767, 32767>(yaw)
}

fn take_acceleration<R: Reader>(bits: &mut R) -> Option<Value> {
    Some(Value::Seq(vec![
        Some(bits.take_int::<-2000, 2001>()?),
        Some(bits.take_int::<-2000, 2001>()?),
        Some(bits.take_int::<-127, 127>()?),
        Some(bits.take_int::<-32767, 32767>()?),
    ]))
}

/// Writes BrakeSystemStatus.
fn put_brakes(bits: &mut impl Writer, value: &Value) -> Option<()> {
    let [Some(wheels), Some(traction), Some(antilock), Some(stability), Some(boost), Some(auxiliary)] =
        value.entries()?
    else {
        return None;
    };
    bits.put_fixed_bits::<5>(wheels)?;
    bits.put_enum::<4>(traction)?;
    bits.put_enum::<4>(antilock)?;
    bits.put_enum::<4>(stability)?;
    bits.put_enum::<3>(boost)?;
    bits.put_enum::<4>(auxiliary)
}

fn take_brakes<R: Reader>(bits: &mut R) -> Option<Value> {
    Some(Value::Seq(vec![
        Some(bits.take_fixed_bits::<5>()?),
        Some(bits.take_enum::<4>()?),
        Some(bits.take_enum::<4>()?),
        Some(bits.take_enum::<4>()?),
        Some(bits.take_enum::<3>()?),
        Some(bits.take_enum::<4>()?),
    ]))
}

/// Writes VehicleID.
fn put_id(bits: &mut impl Writer, value: &Value) -> Option<()> {
    match value {
        Value::Choice(0, entity) => {
            bits.put_alternative::<2>(0);
            bits.put_four_octets(entity)
        }
        Value::Choice(1, station) => {
            bits.put_alternative::<2>(1);
            bits.put_int::<0, 4294967295>(station)
        }
        _ => None,
    }
}

fn take_id<R: Reader>(bits: &mut R) -> Option<Value> {
    Some(match bits.take_alternative::<2>()? {
        0 => Value::Choice(0, Box::new(bits.take_four_octets()?)),
        _ => Value::Choice(1, Box::new(bits.take_int::<0, 4294967295>()?)),
    })
}

/// Writes PartIIcontent.
fn put_part(bits: &mut impl Writer, value: &Value) -> Option<()> {
    match value {
        Value::Choice(0, safety) => {
            bits.put_marked_alternative::<2>(0);
            put_safety(bits, safety)
        }
        Value::Choice(1, special) => {
            bits.put_marked_alternative::<2>(1);
            put_special(bits, special)
        }
        Value::Choice(2, supplemental) => {
            bits.put_marked_alternative::<2>(2);
            bits.put_open(32, |bits| put_supplemental(bits, supplemental))
        }
        _ => None,
    }
}

fn take_part<R: Reader>(bits: &mut R) -> Option<Value> {
    Some(match bits.take_marked_alternative::<2, 3>()? {
        0 => Value::Choice(0, Box::new(take_safety(bits)?)),
        1 => Value::Choice(1, Box::new(take_special(bits)?)),
        _ => Value::Choice(2, Box::new(bits.take_open(take_supplemental)?)),
    })
}

/// Writes VehicleSafetyExtensions.
fn put_safety(bits: &mut impl Writer, value: &Value) -> Option<()> {
    let [events, history, prediction, lights] = value.entries()?;
    bits.put_preamble([false, events.is_some(), history.is_some(), prediction.is_some(), lights.is_some()]);
    if let Some(events) = events {
        bits.put_marked_bits::<13>(events)?;
    }
    if let Some(history) = history {
        put_history(bits, history)?;
    }
    if let Some(prediction) = prediction {
        put_prediction(bits, prediction)?;
    }
    match lights {
        Some(lights) => bits.put_marked_bits::<9>(lights),
        None => Some(()),
    }
}

fn take_safety<R: Reader>(bits: &mut R) -> Option<Value> {
    let [is_extended, has_events, has_history, has_prediction, has_lights] = bits.take_preamble()?;
    if is_extended {
        return None;
    }
    Some(Value::Seq(vec![
        bits.take_if(has_events, R::take_marked_bits::<13>)?,
        bits.take_if(has_history, take_history)?,
        bits.take_if(has_prediction, take_prediction)?,
        bits.take_if(has_lights, R::take_marked_bits::<9>)?,
    ]))
}

/// Writes PathPrediction.
fn put_prediction(bits: &mut impl Writer, value: &Value) -> Option<()> {
    let [Some(radius), Some(confidence)] = value.entries()? else {
        return None;
    };
    bits.put_preamble([false]);
    bits.put_int::<-32767, 32767>(radius)?;
    bits.put_int::<0, 200>(confidence)
}

fn take_prediction<R: Reader>(bits: &mut R) -> Option<Value> {
    let [is_extended] = bits.take_preamble()?;
    if is_extended {
        return None;
    }
    Some(Value::Seq(vec![Some(bits.take_int::<-32767, 32767>()?), Some(bits.take_int::<0, 200>()?)]))
}

/// Writes PathHistory.
fn put_history(bits: &mut impl Writer, value: &Value) -> Option<()> {
    let [status, Some(Value::List(crumbs))] = value.entries()? else {
        return None;
    };
    bits.put_preamble([false, status.is_some()]);
    if let Some(status) = status {
        bits.put_fixed_bits::<8>(status)?;
    }
    bits.put_count::<1, 23>(crumbs.len())?;
    crumbs.iter().try_for_each(|crumb| put_crumb(bits, crumb))
}

fn take_history<R: Reader>(bits: &mut R) -> Option<Value> {
    let [is_extended, has_status] = bits.take_preamble()?;
    if is_extended {
        return None;
    }
    let status = bits.take_if(has_status, R::take_fixed_bits::<8>)?;
    let count = bits.take_count::<1, 23>()?;
    let mut crumbs = Vec::with_capacity(count);
    for _ in 0..count {
        crumbs.push(take_crumb(bits)?);
    }
    Some(Value::Seq(vec![status, Some(Value::List(crumbs))]))
}

/// Writes PathHistoryPoint.
fn put_crumb(bits: &mut impl Writer, value: &Value) -> Option<()> {
    let [Some(latitude), Some(longitude), Some(elevation), Some(time), speed, accuracy, heading] =
        value.entries()?
    else {
        return None;
    };
    bits.put_preamble([false, speed.is_some(), accuracy.is_some(), heading.is_some()]);
    bits.put_int::<-131072, 131071>(latitude)?;
    bits.put_int::<-131072, 131071>(longitude)?;
    bits.put_int::<-2048, 2047>(elevation)?;
    bits.put_int::<1, 65535>(time)?;
    if let Some(speed) = speed {
        bits.put_int::<0, 8191>(speed)?;
    }
    if let Some(accuracy) = accuracy {
        put_accuracy(bits, accuracy)?;
    }
    match heading {
        Some(heading) => bits.put_int::<0, 240>(heading),
        None => Some(()),
    }
}

fn take_crumb<R: Reader>(bits: &mut R) -> Option<Value> {
    let [is_extended, has_speed, has_accuracy, has_heading] = bits.take_preamble()?;
    if is_extended {
        return None;
    }
    Some(Value::Seq(vec![
        Some(bits.take_int::<-131072, 131071>()?),
        Some(bits.take_int::<-131072, 131071>()?),
        Some(bits.take_int::<-2048, 2047>()?),
        Some(bits.take_int::<1, 65535>()?),
        bits.take_if(has_speed, R::take_int::<0, 8191>)?,
        bits.take_if(has_accuracy, take_accuracy)?,
        bits.take_if(has_heading, R::take_int::<0, 240>)?,
    ]))
}

/// Writes SpecialVehicleExtensions.
fn put_special(bits: &mut impl Writer, value: &Value) -> Option<()> {
    let [alerts, description] = value.entries()?;
    bits.put_preamble([false, alerts.is_some(), description.is_some()]);
    if let Some(alerts) = alerts {
        put_alerts(bits, alerts)?;
    }
    match description {
        Some(description) => put_description(bits, description),
        None => Some(()),
    }
}

fn take_special<R: Reader>(bits: &mut R) -> Option<Value> {
    let [is_extended, has_alerts, has_description] = bits.take_preamble()?;
    if is_extended {
        return None;
    }
    Some(Value::Seq(vec![
        bits.take_if(has_alerts, take_alerts)?,
        bits.take_if(has_description, take_description)?,
    ]))
}

/// Writes EmergencyDetails.
fn put_alerts(bits: &mut impl Writer, value: &Value) -> Option<()> {
    let [Some(rights), Some(siren), Some(lights), Some(multi), response] = value.entries()? else {
        return None;
    };
    bits.put_preamble([false, response.is_some()]);
    bits.put_int::<0, 31>(rights)?;
    bits.put_enum::<4>(siren)?;
    bits.put_enum::<8>(lights)?;
    bits.put_enum::<4>(multi)?;
    let Some(response) = response else {
        return Some(());
    };
    bits.put_marked_enum::<0, 7, 7>(response)
}

fn take_alerts<R: Reader>(bits: &mut R) -> Option<Value> {
    let [is_extended, has_response] = bits.take_preamble()?;
    if is_extended {
        return None;
    }
    Some(Value::Seq(vec![
        Some(bits.take_int::<0, 31>()?),
        Some(bits.take_enum::<4>()?),
        Some(bits.take_enum::<8>()?),
        Some(bits.take_enum::<4>()?),
        bits.take_if(has_response, R::take_marked_enum::<0, 7, 7>)?,
    ]))
}

/// Writes EventDescription.
fn put_description(bits: &mut impl Writer, value: &Value) -> Option<()> {
    let [Some(event), codes, heading] = value.entries()? else {
        return None;
    };
    bits.put_preamble([false, codes.is_some(), heading.is_some()]);
    bits.put_int::<0, 65535>(event)?;
    if let Some(codes) = codes {
        let Value::List(codes) = codes else {
            return None;
        };
        bits.put_count::<1, 8>(codes.len())?;
        codes.iter().try_for_each(|code| bits.put_int::<0, 65535>(code))?;
    }
    match heading {
        Some(heading) => bits.put_fixed_bits::<16>(heading),
        None => Some(()),
    }
}

fn take_description<R: Reader>(bits: &mut R) -> Option<Value> {
    let [is_extended, has_codes, has_heading] = bits.take_preamble()?;
    if is_extended {
        return None;
    }
    Some(Value::Seq(vec![
        Some(bits.take_int::<0, 65535>()?),
        bits.take_if(has_codes, take_codes)?,
        bits.take_if(has_heading, R::take_fixed_bits::<16>)?,
    ]))
}

fn take_codes<R: Reader>(bits: &mut R) -> Option<Value> {
    let count = bits.take_count::<1, 8>()?;
    let mut codes = Vec::with_capacity(count);
    for _ in 0..count {
        codes.push(bits.take_int::<0, 65535>()?);
    }
    Some(Value::List(codes))
}

/// Writes SupplementalVehicleExtensions.
fn put_supplemental(bits: &mut impl Writer, value: &Value) -> Option<()> {
    let [classification, vehicle, weather] = value.entries()?;
    bits.put_preamble([false, classification.is_some(), vehicle.is_some(), weather.is_some()]);
    if let Some(classification) = classification {
        bits.put_int::<0, 255>(classification)?;
    }
    if let Some(vehicle) = vehicle {
        put_vehicle(bits, vehicle)?;
    }
    match weather {
        Some(weather) => put_weather(bits, weather),
        None => Some(()),
    }
}

fn take_supplemental<R: Reader>(bits: &mut R) -> Option<Value> {
    let [is_extended, has_classification, has_vehicle, has_weather] = bits.take_preamble()?;
    if is_extended {
        return None;
    }
    Some(Value::Seq(vec![
        bits.take_if(has_classification, R::take_int::<0, 255>)?,
        bits.take_if(has_vehicle, take_vehicle)?,
        bits.take_if(has_weather, take_weather)?,
    ]))
}

/// Writes VehicleData.
fn put_vehicle(bits: &mut impl Writer, value: &Value) -> Option<()> {
    let [height, bumpers, mass, weight] = value.entries()?;
    bits.put_preamble([false, height.is_some(), bumpers.is_some(), mass.is_some(), weight.is_some()]);
    if let Some(height) = height {
        bits.put_int::<0, 127>(height)?;
    }
    if let Some(bumpers) = bumpers {
        let [Some(front), Some(rear)] = bumpers.entries()? else {
            return None;
        };
        bits.put_int::<0, 127>(front)?;
        bits.put_int::<0, 127>(rear)?;
    }
    if let Some(mass) = mass {
        bits.put_int::<0, 255>(mass)?;
    }
    match weight {
        Some(weight) => bits.put_int::<0, 64255>(weight),
        None => Some(()),
    }
}

fn take_vehicle<R: Reader>(bits: &mut R) -> Option<Value> {
    let [is_extended, has_height, has_bumpers, has_mass, has_weight] = bits.take_preamble()?;
    if is_extended {
        return None;
    }
    Some(Value::Seq(vec![
        bits.take_if(has_height, R::take_int::<0, 127>)?,
        bits.take_if(has_bumpers, |bits| {
            Some(Value::Seq(vec![Some(bits.take_int::<0, 127>()?), Some(bits.take_int::<0, 127>()?)]))
        })?,
        bits.take_if(has_mass, R::take_int::<0, 255>)?,
        bits.take_if(has_weight, R::take_int::<0, 64255>)?,
    ]))
}

/// Writes WeatherReport.
fn put_weather(bits: &mut impl Writer, value: &Value) -> Option<()> {
    let [Some(rain), rate, situation, friction, road] = value.entries()? else {
        return None;
    };
    bits.put_preamble([false, rate.is_some(), situation.is_some(), friction.is_some(), road.is_some()]);
    bits.put_enum_from::<1, 3>(rain)?;
    if let Some(rate) = rate {
        bits.put_int::<0, 65535>(rate)?;
    }
    if let Some(situation) = situation {
        bits.put_marked_enum::<1, 15, 15>(situation)?;
    }
    if let Some(friction) = friction {
        bits.put_int::<0, 101>(friction)?;
    }
    match road {
        Some(friction) => bits.put_int::<0, 50>(friction),
        None => Some(()),
    }
}

fn take_weather<R: Reader>(bits: &mut R) -> Option<Value> {
    let [is_extended, has_rate, has_situation, has_friction, has_road] = bits.take_preamble()?;
    if is_extended {
        return None;
    }
    Some(Value::Seq(vec![
        Some(bits.take_enum_from::<1, 3>()?),
        bits.take_if(has_rate, R::take_int::<0, 65535>)?,
        bits.take_if(has_situation, R::take_marked_enum::<1, 15, 15>)?,
        bits.take_if(has_friction, R::take_int::<0, 101>)?,
        bits.take_if(has_road, R::take_int::<0, 50>)?,
    ]))
}

/// A car that brakes on a wet road.
pub fn sample() -> Value {
    let safety = Value::Seq(vec![
        Some(flags(13, 0b0_0000_0100_0000)),
        Some(history_sample(None, CRUMBS.len())),
        Some(integers([-4120, 180])),
        Some(flags(9, 0b1_0000_0000)),
    ]);
    let parts = vec![Value::Choice(0, Box::new(safety)), Value::Choice(2, Box::new(supplemental_sample()))];
    let id = Value::Choice(1, Box::new(Value::Int(2_718_281_828)));
    Value::Seq(vec![Some(core_sample()), Some(Value::List(parts)), Some(id), None])
}

/// Four messages of changing shape.
pub fn turns() -> Vec<Value> {
    let special = Value::List(vec![Value::Choice(1, Box::new(special_sample()))]);
    let entity = Value::Choice(0, Box::new(Value::Octets(vec![0x0a, 0xfe, 0x31, 0x99])));
    let note = Value::Text(b"slow vehicle".to_vec());
    let history = history_sample(Some(flags(8, 0b1100_0001)), 3);
    let safety = Value::Seq(vec![None, Some(history), None, None]);
    let safety = Value::List(vec![Value::Choice(0, Box::new(safety))]);
    let station = Value::Choice(1, Box::new(Value::Int(99)));
    vec![
        sample(),
        Value::Seq(vec![Some(core_sample()), None, None, None]),
        Value::Seq(vec![Some(core_sample()), Some(special), Some(entity), Some(note)]),
        Value::Seq(vec![Some(core_sample()), Some(safety), Some(station), None]),
    ]
}

fn special_sample() -> Value {
    let alerts = Value::Seq(vec![
        Some(Value::Int(3)),
        Some(Value::Enum(2)),
        Some(Value::Enum(3)),
        Some(Value::Enum(1)),
        Some(Value::Enum(1)),
    ]);
    let codes = Value::List(vec![Value::Int(257), Value::Int(513)]);
    let description = vec![Some(Value::Int(1025)), Some(codes), Some(flags(16, 0xc001))];
    Value::Seq(vec![Some(alerts), Some(Value::Seq(description))])
}

fn core_sample() -> Value {
    let brakes = vec![
        Some(flags(5, 0b01111)),
        Some(Value::Enum(2)),
        Some(Value::Enum(3)),
        Some(Value::Enum(2)),
        Some(Value::Enum(1)),
        Some(Value::Enum(0)),
    ];
    Value::Seq(vec![
        Some(Value::Int(83)),
        Some(Value::Octets(vec![0x1c, 0xa5, 0x7e, 0x42])),
        Some(Value::Int(36_217)),
        Some(Value::Int(422_914_880)),
        Some(Value::Int(-837_380_123)),
        Some(Value::Int(2_654)),
        Some(integers([40, 33, 8_190])),
        Some(Value::Enum(2)),
        Some(Value::Int(723)),
        Some(Value::Int(21_345)),
        Some(Value::Int(-4)),
        Some(integers([-310, 22, -2, -415])),
        Some(Value::Seq(brakes)),
        Some(integers([187, 466])),
    ])
}

fn history_sample(status: Option<Value>, points: usize) -> Value {
    let crumbs = CRUMBS.iter().take(points).map(|(latitude, longitude, elevation, time, speed)| {
        Value::Seq(vec![
            Some(Value::Int((*latitude).into())),
            Some(Value::Int((*longitude).into())),
            Some(Value::Int((*elevation).into())),
            Some(Value::Int((*time).into())),
            (*speed != 0).then_some(Value::Int((*speed).into())),
            None,
            None,
        ])
    });
    Value::Seq(vec![status, Some(Value::List(crumbs.collect()))])
}

fn supplemental_sample() -> Value {
    let vehicle = vec![Some(Value::Int(31)), Some(integers([50, 52])), Some(Value::Int(65)), None];
    let weather =
        vec![Some(Value::Enum(0)), Some(Value::Int(140)), Some(Value::Enum(10)), Some(Value::Int(62)), None];
    Value::Seq(vec![Some(Value::Int(20)), Some(Value::Seq(vehicle)), Some(Value::Seq(weather))])
}
