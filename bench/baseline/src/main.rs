//! The baseline of the benchmark: the same messages in Rust, by hand, and by the same trees as the
//! proved crates have. It prints what the Rattle program prints.
mod bits;
mod hand;
mod octets;
mod oer;
mod per;
mod rows;
mod rules;
mod same;
#[cfg(test)]
mod tests;
mod tree;
mod value;

use bits::{BitReader, BitWriter};
use octets::{OctetReader, OctetWriter};
use std::hint::black_box;
use std::time::Instant;

/// What `main` was asked for.
struct Plan {
    form: String,
    rounds: u32,
    what: String,
    name: String,
}

fn main() {
    let mut words = std::env::args().skip(1);
    let plan = Plan {
        form: words.next().unwrap_or("hand".to_string()),
        rounds: words.next().map_or(15, |text| text.parse().unwrap()),
        what: words.next().unwrap_or_default(),
        name: words.next().unwrap_or_default(),
    };
    match plan.form.as_str() {
        "hand" => by_hand(&plan),
        "same" => by_hand_same_values(&plan),
        _ => by_tree(&plan),
    }
}

fn by_hand(plan: &Plan) {
    use hand::{Aligned, Bsm, Cam, List, Shifted, Small, Wide};
    let source = rows::source();
    let cut = || black_box(source.as_slice());
    run(plan, "small", Small::sample, Small::encode, Small::decode);
    run(plan, "wide", Wide::sample, Wide::encode, Wide::decode);
    run(plan, "shifted", || Shifted::sample(cut()), Shifted::encode, Shifted::decode);
    run(plan, "aligned", || Aligned::sample(cut()), Aligned::encode, Aligned::decode);
    run_turns(plan, "aligned", &encoded("aligned"), Aligned::decode);
    run(plan, "cam", Cam::sample, Cam::encode, Cam::decode);
    run_turns(plan, "cam", &encoded("cam"), Cam::decode);
    run(plan, "bsm", Bsm::sample, Bsm::encode, Bsm::decode);
    run_turns(plan, "bsm", &encoded("bsm"), Bsm::decode);
    run(plan, "list", List::sample, List::encode, List::decode);
    run_turns(plan, "list", &encoded("list"), List::decode);
}

/// The messages that are decoded in turn, in PER.
fn encoded(name: &str) -> Vec<Vec<u8>> {
    use same::{bsm, cam, list, strings::Aligned};
    type Encode = fn(&value::Value) -> Option<Vec<u8>>;
    let (turns, encode): (_, Encode) = match name {
        "aligned" => (Aligned::turns(&rows::source()), Aligned::encode::<BitWriter>),
        "cam" => (cam::turns(), cam::encode::<BitWriter>),
        "bsm" => (bsm::turns(), bsm::encode::<BitWriter>),
        _ => (list::turns(), list::encode::<BitWriter>),
    };
    turns.iter().map(|value| encode(value).unwrap()).collect()
}

fn by_hand_same_values(plan: &Plan) {
    use same::strings::{Aligned, Shifted};
    use same::{bsm, cam, list, small, wide};
    let source = rows::source();
    let cut = || black_box(source.as_slice());
    // both rules, and messages in turn where there are such
    macro_rules! run_both {
        ($name:literal, $message:ident, $sample:expr) => {
            run(plan, $name, $sample, $message::encode::<BitWriter>, |octets| {
                $message::decode::<BitReader>(octets)
            });
            run_oer(plan, $name, $sample, $message::encode::<OctetWriter>, |octets| {
                $message::decode::<OctetReader>(octets)
            });
        };
        ($name:literal, $message:ident, $sample:expr, turns) => {
            run_both!($name, $message, $sample);
            run_turns(plan, $name, &encoded($name), |octets| $message::decode::<BitReader>(octets));
        };
    }
    run_both!("small", small, small::sample);
    run_both!("wide", wide, wide::sample);
    run_both!("shifted", Shifted, || Shifted::sample(cut()));
    run_both!("aligned", Aligned, || Aligned::sample(cut()), turns);
    run_both!("cam", cam, cam::sample, turns);
    run_both!("bsm", bsm, bsm::sample, turns);
    run_both!("list", list, list::sample, turns);
}

fn by_tree(plan: &Plan) {
    use tree::{aligned_type, aligned_value, shifted_type, shifted_value};
    use tree::{small_type, small_value, wide_type, wide_value};
    let source = rows::source();
    let cut = || black_box(source.as_slice());
    let typed = |name: &str, ty: tree::AsnType, build: &dyn Fn() -> tree::Value| {
        let encode = |value: &tree::Value| tree::encode(black_box(&ty), value);
        let decode = |octets: &[u8]| tree::decode(black_box(&ty), octets);
        run(plan, name, build, encode, decode);
    };
    typed("small", small_type(), &small_value);
    typed("wide", wide_type(), &wide_value);
    typed("shifted", shifted_type(), &|| shifted_value(cut()));
    typed("aligned", aligned_type(), &|| aligned_value(cut()));
}

/// How many messages a round has.
fn times(name: &str) -> u32 {
    match name {
        "small" => 200_000,
        "wide" | "cam" | "bsm" => 20_000,
        _ => 500,
    }
}

/// Measures one message.
fn run<T>(
    plan: &Plan,
    name: &str,
    build: impl Fn() -> T,
    encode: impl Fn(&T) -> Option<Vec<u8>>,
    decode: impl Fn(&[u8]) -> Option<T>,
) {
    let message = build();
    let octets = encode(&message).unwrap();
    assert_eq!(encode(&decode(&octets).unwrap()).unwrap(), octets);
    println!("octets {name} {octets:?}");
    let times = times(name);
    for _ in 0..plan.rounds {
        measure(plan, "build", name, times, &build);
        measure(plan, "encode", name, times, || encode(black_box(&message)).unwrap());
        measure(plan, "decode", name, times, || decode(black_box(&octets)).unwrap());
    }
}

/// Measures one message in OER.
fn run_oer<T>(
    plan: &Plan,
    name: &str,
    build: impl Fn() -> T,
    encode: impl Fn(&T) -> Option<Vec<u8>>,
    decode: impl Fn(&[u8]) -> Option<T>,
) {
    let message = build();
    let octets = encode(&message).unwrap();
    assert_eq!(encode(&decode(&octets).unwrap()).unwrap(), octets);
    println!("octets-oer {name} {octets:?}");
    let times = times(name);
    for _ in 0..plan.rounds {
        measure(plan, "encode-oer", name, times, || encode(black_box(&message)).unwrap());
        measure(plan, "decode-oer", name, times, || decode(black_box(&octets)).unwrap());
    }
}

/// Measures messages of changing shape, decoded in turn.
fn run_turns<T>(plan: &Plan, name: &str, turns: &[Vec<u8>], decode: impl Fn(&[u8]) -> Option<T>) {
    for octets in turns {
        println!("octets-turns {name} {octets:?}");
    }
    let next = std::cell::Cell::new(0);
    for _ in 0..plan.rounds {
        measure(plan, "decode-turns", name, times(name), || {
            let octets = &turns[next.replace((next.get() + 1) % 4)];
            decode(black_box(octets)).unwrap()
        });
    }
}

/// Does it that many times, where it is asked for, and prints the nanoseconds of one.
fn measure<T>(plan: &Plan, what: &str, name: &str, times: u32, step: impl Fn() -> T) {
    let all = plan.what.is_empty() && plan.name.is_empty();
    if !all && (plan.what != what || plan.name != name) {
        return;
    }
    let start = Instant::now();
    for _ in 0..times {
        black_box(step());
    }
    let nanoseconds = start.elapsed().as_secs_f64() * 1e9 / f64::from(times);
    println!("{what} {name} {nanoseconds:.2}");
}
