//! What is done next: mostly what an honest agent would do, now and then anything.
use crate::net::Net;
use crate::world::{Draw, Step, World};
use chance::Chance;
use compare::texts;
use roosteryore::{Date, Day, Number, REGISTRY_ROOM};

/// How many choirs there are.
const CHOIRS: usize = 5;

/// The days that a run may start on: before a leap day, a year's end, and the day of the sample cases.
const DAYS: [Day; 3] = [Day::new(2024, 2, 20), Day::new(2005, 12, 25), Day::new(2005, 9, 19)];

/// A world to start from: any day, first receipt and rooms.
pub fn start(chance: &mut Chance) -> World {
    let day = if chance.one_in(12) { Day::new(2099, 12, 20) } else { chance.pick(&DAYS) };
    let first = match chance.below(12) {
        0 => 1,
        1 => 999_999_999_999_950,
        _ => chance.between(1, 1_000_000_000),
    };
    let book = chance.pick(&[50, 500, 1500, 1500]);
    let table = chance.pick(&[book / 2, book, book, book + 50]);
    World::new(day, first, table, book)
}

/// A step to take next.
pub fn choose(world: &World, net: &Net, now: usize, chance: &mut Chance) -> Step {
    if let Some(message) = net.due(now).filter(|_| !chance.one_in(3)) {
        return deliver(world, message, chance);
    }
    let frozen = world.book.head.frozen;
    match chance.below(100) {
        0..=4 => Step::Open { number: number(chance), kind: kind(chance) },
        5..=9 => {
            let kopecks = chance.pick(&[0, 1, 50, 1012, 5000, 1_000_000_000]);
            Step::Draw(Draw { number: number(chance), kind: kind(chance), kopecks })
        }
        10..=29 => {
            let (number, kind, kopecks) = (number(chance), kind(chance), texts::any_kopecks(chance));
            Step::Accept { number, kind, kopecks, date: texts::any_date(chance, texts::next_day(frozen)) }
        }
        30..=49 => Step::WritePayment { receipt: receipt(world, chance), room: room(chance) },
        50..=58 => Step::WriteStatus { receipt: receipt(world, chance), room: room(chance) },
        59..=67 => {
            Step::WriteCancel { receipt: receipt(world, chance), reason: chance.between(1, 6), room: room(chance) }
        }
        68..=70 => {
            let (number, kind, kopecks) = (number(chance), kind(chance), texts::any_kopecks(chance));
            Step::WriteCheck { number, kind, kopecks, room: room(chance) }
        }
        71..=80 => Step::WriteRegistry { day: past_day(world, chance), room: room(chance) },
        81..=87 => Step::Freeze { day: next_or_any(frozen, chance) },
        _ if world.sent.is_empty() => Step::Freeze { day: next_or_any(frozen, chance) },
        _ => deliver(world, chance.below(world.sent.len()), chance),
    }
}

fn deliver(world: &World, message: usize, chance: &mut Chance) -> Step {
    Step::Deliver { message, clock: clock(world, chance), room: room(chance) }
}

/// The gate's clock: near the days at work, or anything.
fn clock(world: &World, chance: &mut Chance) -> Date {
    match chance.below(20) {
        0 => [chance.byte(); 19],
        1 => *b"2099-12-31T23:59:59",
        _ => texts::any_date(chance, world.gate.head.closed),
    }
}

/// A buffer's size: enough for anything, more often than not.
fn room(chance: &mut Chance) -> usize {
    match chance.below(12) {
        0 => chance.pick(&[0, 511, 512, 513, REGISTRY_ROOM - 1]),
        _ => REGISTRY_ROOM,
    }
}

fn number(chance: &mut Chance) -> Number {
    match chance.below(12) {
        0 => texts::any_number(chance),
        _ => choir(chance.below(CHOIRS)),
    }
}

/// A choir's number; every other one is in Cyrillic letters.
fn choir(place: usize) -> Number {
    let word = if place % 2 == 0 { "choir" } else { "хор" };
    format!("{word}-{place}").parse().expect("a number")
}

fn kind(chance: &mut Chance) -> u64 {
    if chance.one_in(12) { texts::any_kind(chance) } else { 1 }
}

/// The receipt of one of the last payments, or any.
fn receipt(world: &World, chance: &mut Chance) -> u64 {
    let head = &world.book.head;
    match (head.used, chance.below(20)) {
        (0, _) | (_, 0) => chance.pick(&[0, head.first, head.first + head.used as u64, u64::MAX]),
        (used, 1 | 2) => head.first + chance.below(used) as u64,
        (used, _) => head.first + (used - 1 - chance.below(used.min(12))) as u64,
    }
}

fn next_or_any(day: Day, chance: &mut Chance) -> Day {
    if chance.one_in(8) { texts::any_day(chance, day) } else { texts::next_day(day) }
}

/// The frozen day, a settled one, or any.
fn past_day(world: &World, chance: &mut Chance) -> Day {
    match chance.below(8) {
        0 => texts::any_day(chance, world.book.head.frozen),
        1 => *world.settled.iter().nth(chance.below(world.settled.len())).expect("the starting day is settled"),
        _ => world.book.head.frozen,
    }
}
