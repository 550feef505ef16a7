// Seeded bid files, well formed and damaged. The plain auction is run alongside to know where each file stands.

use crate::plain::{self, Auction, Corner, Curve, Exit, Shape, Side, Terms, TieOrder};
use crate::records::{BidFile, Random, UnitRecord};
use std::collections::HashSet;

const MOST_VALUE: u64 = 0x0FFF_FFFF;

// The bid file of a seed; the same seed always gives the same file.
pub fn bid_file(seed: u64) -> Vec<u8> {
    let mut random = Random::new(seed);
    match random.below(1_000) {
        0..=3 => Vec::new(),
        4..=15 => loose_words(&mut random),
        16..=29 => sized(&mut random),
        30..=39 => many_rounds(&mut random).bytes(),
        40..=57 => crowded(&mut random).bytes(),
        58..=157 => at_curve_edge(&mut random).bytes(),
        158..=217 => at_terms_edge(&mut random).bytes(),
        218..=699 => planned(&mut random).bytes(),
        _ => {
            let file = planned(&mut random);
            damaged(&mut random, file)
        }
    }
}

// ---------------------------------------------------------------- curves

fn drawn_prices(random: &mut Random, count: usize, grain: u64, shallow: bool) -> Vec<u64> {
    let highest = match random.below(6) {
        0 => 10_000,
        1 => 7_000,
        2 => random.within(1, 20),
        _ => random.within(1, 10_000),
    };
    let mut price = (highest / grain * grain).max(1);
    let mut prices = vec![price];
    for left in (1..count as u64).rev() {
        let fall = match random.below(5) {
            _ if shallow => random.below(7),
            0 => 0,
            1 => random.below(4),
            _ => random.within(0, 2 * price / (left + 1)) / grain * grain,
        };
        price = price.saturating_sub(fall);
        prices.push(price);
    }
    if count > 1 && !shallow && random.chance(40) {
        prices[count - 1] = 0;
    }
    prices
}

fn drawn_corners(random: &mut Random, shape: Shape) -> Vec<Corner> {
    let count = match random.below(6) {
        0 => 1,
        1 => 16,
        2 => random.within(4, 16) as usize,
        _ => random.within(2, 4) as usize,
    };
    let grain = random.pick(&[1, 1, 10, 100, 1_000]);
    // A curve that falls by a few pence in millions of kW has areas with small fractions of a pence-kW.
    let shallow = random.chance(15);
    let prices = drawn_prices(random, count, if count > 8 { grain.min(10) } else { grain }, shallow);
    let scale =
        random.pick(&[3_000, 30_000, 30_000, 200_000, 1_000_000, 20_000_000, 120_000_000, 199_000_000]);
    let quantity_grain = random.pick(&[1, 1, 2, 1_000]);
    let mut quantity = (random.within(scale / 4, scale) / quantity_grain * quantity_grain).max(1);
    let mut corners = Vec::new();
    for price in prices {
        if quantity > plain::CEILING {
            break;
        }
        corners.push(Corner { quantity, price });
        let widest = if shape == Shape::Straight { plain::MOST_APART } else { plain::CEILING };
        let gap = match random.below(8) {
            _ if shallow => random.within(1_000_000, plain::MOST_APART),
            0 => 1,
            1 => widest,
            _ => random.within(1, (scale / 2).min(widest)).next_multiple_of(quantity_grain).min(widest),
        };
        quantity += gap;
    }
    corners
}

// ---------------------------------------------------------------- names

fn drawn_name(random: &mut Random, taken: &mut HashSet<[u8; 8]>) -> [u8; 8] {
    loop {
        let alphabet: &[u8] =
            if random.chance(60) { b"AZ09-" } else { b"ABCDEFGHIJKLMNOPQRSTUVWXYZ0123456789-" };
        let length = if random.chance(30) { 8 } else { random.within(1, 8) as usize };
        let mut name = [b' '; 8];
        for byte in &mut name[..length] {
            *byte = random.pick(alphabet);
        }
        if taken.insert(name) {
            return name;
        }
    }
}

// A name that question 14 refuses, or one that is nearly so.
fn doubtful_name(random: &mut Random, taken: &HashSet<[u8; 8]>) -> [u8; 8] {
    let mut name = *b"UNIT-1  ";
    match random.below(10) {
        0 => name = [b' '; 8],
        1 => name[0] = b' ',
        2 => name[3] = b' ',
        3 => name[7] = b'X',
        4 => name[random.below(6) as usize] = random.pick(b"abz"),
        5 => name[7] = 0,
        6 => {
            name[random.below(8) as usize] = random.pick(&[0, 31, 33, 44, 46, 47, 58, 64, 91, 127, 128, 255])
        }
        7 => name = [b'-'; 8],
        _ => {
            if let Some(former) = taken.iter().min() {
                name = *former;
            }
        }
    }
    name
}

// ---------------------------------------------------------------- writing with the auction alongside

struct Author<'a> {
    random: &'a mut Random,
    file: BidFile,
    auction: Auction,
    names: HashSet<[u8; 8]>,
    settled: bool,
}

impl Author<'_> {
    fn unit(&mut self, unit: &UnitRecord) {
        self.file.unit(unit);
        let side = if unit.side == 0 { Side::Taker } else { Side::Maker };
        let UnitRecord { capacity, class, years, random, .. } = *unit;
        let name = u64::from_be_bytes(unit.name);
        let _ = self.auction.enrol(plain::Offer { capacity, class, side, years, random, name });
    }

    fn exit(&mut self, unit: u64, price: u64) {
        self.file.exit(unit, price);
        if !self.settled {
            let _ = self.auction.exit(unit & MOST_VALUE, price & MOST_VALUE);
        }
    }

    fn years(&mut self, unit: u64, years: u64) {
        self.file.years(unit, years);
        if !self.settled {
            let _ = self.auction.years(unit & MOST_VALUE, years & MOST_VALUE);
        }
    }

    fn step_back(&mut self) {
        self.file.step_back();
        if !self.settled {
            let _ = self.auction.step_back();
        }
    }

    fn close(&mut self) {
        self.file.close();
        if !self.settled {
            self.settled = self.auction.close().settlement.is_some();
        }
    }

    fn count(&self) -> u64 {
        self.auction.units.len() as u64
    }

    // A unit that is in, or else whatever number was tried last.
    fn some_unit(&mut self) -> u64 {
        let count = self.count();
        let mut unit = self.random.below(count);
        for _ in 0..6 {
            if count > 0 && self.auction.units[unit as usize].exit_price.is_none() {
                break;
            }
            unit = self.random.below(count);
        }
        unit
    }

    // A unit number at the edges of questions 15 and 16.
    fn any_unit(&mut self) -> u64 {
        let count = self.count();
        match self.random.below(8) {
            0 => count,
            1 => count + self.random.below(5),
            2 => self.random.pick(&[MOST_VALUE, 512, 0x0100_0000, 1 << 16, 256]),
            3 | 4 => self.random.below(count),
            _ => self.some_unit(),
        }
    }

    // A price at the edges of questions 17 and 18.
    fn any_price(&mut self) -> u64 {
        let (cap, floor, threshold) = (self.auction.cap, self.auction.floor, self.auction.terms.threshold);
        let edges =
            [floor, floor + 1, cap, cap + 1, threshold, threshold + 1, 0, self.auction.terms.cap, MOST_VALUE];
        if self.random.chance(80) {
            self.random.pick(&edges)
        } else {
            self.random.within(floor.saturating_sub(2), cap + 2)
        }
    }

    // An exit price of the present round; edges come up often.
    fn fair_price(&mut self) -> u64 {
        let (cap, floor) = (self.auction.cap, self.auction.floor);
        match self.random.below(4) {
            0 => cap,
            1 => floor + 1,
            _ => self.random.within(floor + 1, cap),
        }
    }

    // An entry that may be refused; true if it stands.
    fn tried_entry(&mut self) -> bool {
        let standing = self.auction.entries.len();
        let unit = if self.random.chance(75) { self.some_unit() } else { self.any_unit() };
        if self.random.chance(55) {
            let price = if self.random.chance(60) { self.fair_price() } else { self.any_price() };
            self.exit(unit, price);
        } else {
            let now = self.auction.units.get(unit as usize).map_or(1, |u| u.offer.years);
            let years = match self.random.below(6) {
                0 => 0,
                1 => now,
                2 => now + 1,
                3 => self.random.pick(&[MOST_VALUE, 15, 256]),
                _ => self.random.within(1, now.max(2) - 1),
            };
            self.years(unit, years);
        }
        self.auction.entries.len() > standing
    }

    // Records that leave the plan as it is: refused ones, and entries that are stepped back.
    fn aside(&mut self) {
        if self.auction.entries.is_empty() && self.random.chance(30) {
            self.step_back();
            return;
        }
        let mut standing = 0;
        for _ in 0..self.random.within(1, 4) {
            if self.tried_entry() {
                standing += 1;
            }
        }
        for _ in 0..standing {
            self.step_back();
        }
    }

    // A unit record that some question of Enrol may refuse, or several.
    fn doubtful_unit(&mut self) {
        let class = if self.random.chance(30) {
            self.random.pick(&[4, 5, 255, 256, MOST_VALUE])
        } else {
            self.random.below(4)
        };
        let most = plain::MOST_YEARS.get(class as usize).copied().unwrap_or(1);
        let years = if self.random.chance(30) {
            self.random.pick(&[0, most + 1, 15, MOST_VALUE])
        } else {
            self.random.within(1, most)
        };
        let capacity = match self.random.below(6) {
            0 => self.random.pick(&[0, 999, 5_000_001, MOST_VALUE]),
            1 => plain::CEILING - self.auction.enrolled + 1,
            _ => self.random.pick(&[1_000, 5_000_000]),
        };
        let name = doubtful_name(self.random, &self.names);
        let side = self.random.below(2);
        let random = self.random.below(4);
        self.unit(&UnitRecord { capacity, class, side, years, random, name });
        // A unit that was enrolled after all is known from here on.
        if self.auction.units.last().is_some_and(|u| u.offer.name == u64::from_be_bytes(name)) {
            self.names.insert(name);
        }
    }
}

// ---------------------------------------------------------------- planned auctions

// A unit that is to leave in a given round at a given price, or to stay in.
#[derive(Clone, Copy)]
struct Fate {
    record: UnitRecord,
    years: u64,
    leaves: Option<(u64, u64)>,
}

// The round that is to settle.
struct LastRound {
    cap: u64,
    floor: u64,
    spread: u64,
}

fn drawn_last_round(random: &mut Random, corners: &[Corner]) -> LastRound {
    let highest = corners[0].price;
    let near_corner = random.pick(corners).price;
    let cap = match random.below(6) {
        0 => highest,
        1 => near_corner,
        2 => near_corner + 1,
        3 => random.within(1, 5),
        _ => random.within(1, highest),
    };
    let cap = cap.clamp(1, highest);
    let spread = match random.below(6) {
        0 => cap,
        1 => cap.saturating_sub(near_corner),
        2 => random.within(1, 5),
        3 => random.within(1, 2 * cap),
        _ => random.within(1, cap / 2),
    };
    let spread = spread.clamp(1, plain::MOST_PRICE);
    LastRound { cap, floor: cap.saturating_sub(spread), spread }
}

// Prices of the last round's exits: mostly few different ones, so that ties come up.
fn drawn_prices_of_exits(
    random: &mut Random,
    last: &LastRound,
    corners: &[Corner],
    count: usize,
) -> Vec<u64> {
    let lowest = last.floor + 1;
    let mut different = Vec::new();
    for _ in 0..random.within(1, 4) {
        let price = match random.below(8) {
            0 => last.cap,
            1 | 2 => lowest,
            3 => random.pick(corners).price,
            4 => random.pick(corners).price + 1,
            5 => lowest + random.below(4),
            _ => random.within(lowest, last.cap),
        };
        different.push(price.clamp(lowest, last.cap));
    }
    if random.chance(25) {
        different.truncate(1);
        different.push((different[0] + 1).min(last.cap));
    }
    (0..count).map(|_| random.pick(&different)).collect()
}

fn drawn_record(random: &mut Random, capacity: u64, names: &mut HashSet<[u8; 8]>) -> UnitRecord {
    let class = random.below(4);
    let most = plain::MOST_YEARS[class as usize];
    let years = if random.chance(40) { most } else { random.within(1, most) };
    let number = if random.chance(60) { random.below(3) } else { random.below(MOST_VALUE + 1) };
    UnitRecord { capacity, class, side: 1, years, random: number, name: drawn_name(random, names) }
}

fn drawn_leavers(
    random: &mut Random,
    last: &LastRound,
    curve: &Curve,
    corners: &[Corner],
    names: &mut HashSet<[u8; 8]>,
) -> Vec<Fate> {
    let count = match random.below(40) {
        0..=2 => 0,
        3..=29 => random.within(1, 5) as usize,
        30..=38 => random.within(2, 16) as usize,
        _ => random.within(20, 150) as usize,
    };
    let demand = curve.demand(last.cap).min(curve.demand(1));
    let share = (demand / (count as u64 + 1)).clamp(1_000, plain::MOST_CAPACITY);
    let grain = random.pick(&[1, 2, 100, 1_000]);
    let drawn = |random: &mut Random| (random.within(1_000, share) / grain * grain).max(1_000);
    let few: Vec<u64> = (0..random.within(1, 3)).map(|_| drawn(random)).collect();
    let alike = random.chance(50);
    let prices = drawn_prices_of_exits(random, last, corners, count);
    let mut leavers = Vec::new();
    for price in prices {
        let capacity = if alike { random.pick(&few) } else { drawn(random) };
        let record = drawn_record(random, capacity, names);
        let years = if random.chance(40) { random.within(1, record.years) } else { record.years };
        leavers.push(Fate { record, years, leaves: Some((0, price)) });
    }
    leavers
}

// The last round's exits as the ranking will see them; unit numbers rise in the order of enrolment.
fn ranked(leavers: &[Fate], order: TieOrder) -> Vec<Exit> {
    let exit = |(unit, fate): (usize, &Fate)| Exit {
        unit,
        price: fate.leaves.map_or(0, |(_, price)| price),
        capacity: fate.record.capacity,
        years: fate.years,
        random: fate.record.random,
        name: u64::from_be_bytes(fate.record.name),
    };
    let mut exits: Vec<Exit> = leavers.iter().enumerate().map(exit).collect();
    plain::rank(&mut exits, order);
    exits
}

// A place of the ranking with its price, the capacity of the exits up to it, and the capacity in that meets its demand.
#[derive(Clone, Copy)]
struct Stop {
    price: u64,
    before: u64,
    meets: i64,
}

fn stops(curve: &Curve, floor: u64, exits: &[Exit]) -> Vec<Stop> {
    let mut before = 0;
    let mut stops = vec![Stop { price: floor, before, meets: curve.demand(floor) as i64 }];
    for exit in exits {
        before += exit.capacity;
        stops.push(Stop {
            price: exit.price,
            before,
            meets: curve.demand(exit.price) as i64 - before as i64,
        });
    }
    stops
}

// The least capacity in, within the bounds, at which the weighed number is no longer above zero.
fn turning(curve: &Curve, low: &Stop, high: &Stop, first: u64, last: u64) -> u64 {
    let above = |capacity_in: u64| {
        let (s_low, s_high) = (capacity_in + low.before, capacity_in + high.before);
        let sum = (high.price * s_high) as i64 - (low.price * s_low) as i64;
        curve.weigh(s_low, s_high, sum).is_gt()
    };
    let (mut first, mut last) = (first, last);
    while first < last {
        let middle = first + (last - first) / 2;
        if above(middle) {
            first = middle + 1;
        } else {
            last = middle;
        }
    }
    first
}

// A capacity in at which exit h does not fit and all before it do, often where the weighed number turns.
fn aimed_at_weighing(random: &mut Random, curve: &Curve, stops: &[Stop]) -> i64 {
    if stops.len() < 2 {
        return stops[0].meets - 1;
    }
    let h = random.within(1, stops.len() as u64 - 1) as usize;
    let first = (stops[h].meets + 1).max(0);
    let last = stops[h - 1].meets - 1;
    if last < first {
        return last;
    }
    let (first, last) = (first as u64, last as u64);
    let turn = turning(curve, &stops[h - 1], &stops[h], first, last);
    let aim = match random.below(10) {
        0..=3 => turn,
        4 | 5 => turn.saturating_sub(1),
        6 => turn + 1,
        7 => first,
        8 => last,
        _ => random.within(first, last),
    };
    aim.clamp(first, last) as i64
}

// The capacity in at the last close, aimed at one of the grounds.
fn aimed_capacity_in(random: &mut Random, curve: &Curve, stops: &[Stop]) -> i64 {
    let some = stops[random.below(stops.len() as u64) as usize].meets;
    let least = stops[stops.len() - 1].meets;
    match random.below(12) {
        0 => stops[0].meets,
        1 | 2 => some,
        3 => some + 1,
        4 => some - 1,
        5 => least - 1,
        6 => least - random.within(1, 2_000) as i64,
        _ => aimed_at_weighing(random, curve, stops),
    }
}

// Splits a capacity into units of 1,000 to 5,000,000 kW each; none if that cannot be done.
fn split(random: &mut Random, capacity: u64) -> Option<Vec<u64>> {
    if capacity == 0 {
        return Some(Vec::new());
    }
    let least = capacity.div_ceil(plain::MOST_CAPACITY);
    let most = capacity / plain::LEAST_CAPACITY;
    if most < least {
        return None;
    }
    let extra = if random.chance(3) { 300 } else { 5 };
    let count = random.within(least, most.min(least + extra));
    let mut rest = capacity;
    let mut shares = Vec::new();
    for left in (0..count).rev() {
        let lowest = rest.saturating_sub(left * plain::MOST_CAPACITY).max(plain::LEAST_CAPACITY);
        let highest = (rest - left * plain::LEAST_CAPACITY).min(plain::MOST_CAPACITY);
        let middle = (rest / (left + 1) * 3 / 2).clamp(lowest, highest);
        let share = random.within(lowest, middle);
        shares.push(share);
        rest -= share;
    }
    Some(shares)
}

struct Plan {
    shape: Shape,
    corners: Vec<Corner>,
    terms: Terms,
    fates: Vec<Fate>,
    rounds: u64,
    asides: u64,
}

// How many rounds come before the last one: the clock starts no higher than the curve's highest price.
fn drawn_rounds_before(random: &mut Random, last: &LastRound, highest: u64, goes_on: bool) -> u64 {
    let most = (highest - last.cap) / last.spread;
    if !goes_on && random.chance(95) {
        return 0;
    }
    let rounds = if random.chance(5) { 40 } else { 5 };
    random.within(0, most.min(rounds))
}

// Units that leave in the rounds before the last one.
fn add_early_leavers(random: &mut Random, plan: &mut Plan, names: &mut HashSet<[u8; 8]>) {
    let planned: u64 = plan.fates.iter().map(|f| f.record.capacity).sum();
    let mut room = plain::CEILING.saturating_sub(planned);
    for round in 1..plan.rounds {
        let cap = plan.terms.cap - (round - 1) * plan.terms.spread;
        let floor = cap.saturating_sub(plan.terms.spread);
        for _ in 0..random.below(3) {
            let most = room.min(plain::MOST_CAPACITY);
            if most < plain::LEAST_CAPACITY || plan.fates.len() > 500 {
                return;
            }
            let capacity = if random.chance(70) {
                random.within(1_000, most.min(20_000))
            } else {
                random.within(1_000, most)
            };
            let price = if random.chance(30) {
                random.pick(&[floor + 1, cap])
            } else {
                random.within(floor + 1, cap)
            };
            let record = drawn_record(random, capacity, names);
            let at = random.within(0, plan.fates.len() as u64) as usize;
            plan.fates.insert(
                at,
                Fate { record, years: random.within(1, record.years), leaves: Some((round, price)) },
            );
            room -= capacity;
        }
    }
}

// Takers leave at the threshold or below it, makers at any price.
fn set_sides(random: &mut Random, plan: &mut Plan) {
    let prices: Vec<u64> = plan.fates.iter().filter_map(|f| f.leaves).map(|(_, price)| price).collect();
    let threshold = match random.below(6) {
        0 => 0,
        1 => plan.terms.cap,
        2 | 3 if !prices.is_empty() => random.pick(&prices),
        4 if !prices.is_empty() => random.pick(&prices) - 1,
        _ => random.within(0, plan.terms.cap),
    };
    plan.terms.threshold = threshold;
    for fate in &mut plan.fates {
        let may_be_taker = fate.leaves.is_none_or(|(_, price)| price <= threshold);
        fate.record.side = if may_be_taker { random.below(2) } else { 1 };
    }
}

// One attempt at a plan: the capacities are chosen so that the last round settles on the ground aimed at.
fn attempted_plan(random: &mut Random) -> Option<Plan> {
    let shape = random.pick(&[Shape::Straight, Shape::Stepped]);
    let order = random.pick(&[TieOrder::ByRule, TieOrder::ByName]);
    let corners = drawn_corners(random, shape);
    let curve = Curve::new(shape, corners.clone()).ok()?;
    let last = drawn_last_round(random, &corners);
    let mut names = HashSet::new();
    let mut fates = drawn_leavers(random, &last, &curve, &corners, &mut names);
    if last.floor == 0 && random.chance(6) {
        fates.clear();
    }
    let exits = ranked(&fates, order);
    let stops = stops(&curve, last.floor, &exits);
    let capacity_in = u64::try_from(aimed_capacity_in(random, &curve, &stops)).ok()?;
    let outline = Outline { shape, corners, order, last, fates, capacity_in };
    finished_plan(random, outline, names)
}

// What is settled of a plan before its rounds, stayers and sides are drawn.
struct Outline {
    shape: Shape,
    corners: Vec<Corner>,
    order: TieOrder,
    last: LastRound,
    fates: Vec<Fate>,
    capacity_in: u64,
}

fn finished_plan(random: &mut Random, outline: Outline, mut names: HashSet<[u8; 8]>) -> Option<Plan> {
    let Outline { shape, corners, order, last, mut fates, capacity_in } = outline;
    let curve = Curve::new(shape, corners.clone()).ok()?;
    let left: u64 = fates.iter().map(|fate| fate.record.capacity).sum();
    if capacity_in + left > plain::CEILING {
        return None;
    }
    let goes_on = capacity_in + left > curve.demand(last.cap);
    let before = drawn_rounds_before(random, &last, corners[0].price, goes_on);
    for fate in &mut fates {
        fate.leaves = fate.leaves.map(|(_, price)| (before + 1, price));
    }
    for capacity in split(random, capacity_in)? {
        let record = drawn_record(random, capacity, &mut names);
        let at = random.within(0, fates.len() as u64) as usize;
        fates.insert(at, Fate { record, years: random.within(1, record.years), leaves: None });
    }
    let cap = last.cap + before * last.spread;
    let terms = Terms { cap, spread: last.spread.min(cap), threshold: 0, order };
    let asides = random.pick(&[0, 5, 20, 20, 50]);
    let mut plan = Plan { shape, corners, terms, fates, rounds: before + 1, asides };
    add_early_leavers(random, &mut plan, &mut names);
    set_sides(random, &mut plan);
    Some(plan)
}

// ---------------------------------------------------------------- a weighed number of exactly zero

// Two places between which the area is exactly the sum that goes against it.
struct Level {
    shape: Shape,
    corners: Vec<Corner>,
    low_price: u64,
    high_price: u64,
    low_sum: u64,
    capacity: u64,
}

// Around the end q of a step: d kW before q and o kW past it, with d(P - p_l) = o(p_h - P') + q(p_h - p_l).
fn level_on_steps(random: &mut Random) -> Option<Level> {
    let price = random.within(20, plain::MOST_PRICE);
    let next_price = random.below(price / 2);
    let low_price = random.within(next_price + 1, price - 1);
    let high_price = (low_price + random.pick(&[0, 0, 1, 1, 2, 5])).min(price);
    let quantity = random.pick(&[5_000, 40_000, 1_000_000, 50_000_000]) + random.below(1_000);
    let first = random.within(1, 3_000);
    let beyond = |o: u64| o * (high_price - next_price) + quantity * (high_price - low_price);
    let past = (first..first + 4_000).find(|&o| beyond(o) % (price - low_price) == 0)?;
    let short = beyond(past) / (price - low_price);
    if short == 0 || short >= quantity {
        return None;
    }
    let next = Corner { quantity: quantity + past + random.below(1_000), price: next_price };
    let corners = vec![Corner { quantity, price }, next];
    Some(Level {
        shape: Shape::Stepped,
        corners,
        low_price,
        high_price,
        low_sum: quantity - short,
        capacity: short + past,
    })
}

// On a line that falls by 1 in r kW from the corner at q0: with p_h = p_l + e and a capacity of 2ret, the place is
// found from q0 = t(2X - 2u - capacity) - u, where X is the way to the price p_h and u the way to the lower place.
fn level_on_lines(random: &mut Random) -> Option<Level> {
    let r = random.pick(&[1, 2, 5, 10, 100, 1_000]);
    let e = random.pick(&[0, 0, 1, 2]);
    let price = random.within(100, plain::MOST_PRICE);
    let depth = random.within(1, price - 3);
    let (high_price, x) = (price - depth, r * depth);
    let grain = if e == 0 { 2 } else { 2 * r * e };
    let capacity = random.within(1_000, (2 * x).min(40_000)) / grain * grain;
    let half = capacity / 2;
    let short = if e == 0 { 0 } else { random.within(1, half) };
    let along = x.checked_sub(half + short)?;
    let quantity = match e {
        0 => random.within(1_000, 100_000_000),
        _ => (2 * (capacity / grain) * short).checked_sub(along)?,
    };
    let width = (along + capacity).next_multiple_of(r);
    if quantity == 0 || quantity > 150_000_000 || width > (r * price).min(plain::MOST_APART) {
        return None;
    }
    let end = Corner { quantity: quantity + width, price: price - width / r };
    let corners = vec![Corner { quantity, price }, end];
    Some(Level {
        shape: Shape::Straight,
        corners,
        low_price: high_price - e,
        high_price,
        low_sum: quantity + along,
        capacity,
    })
}

// On a line of a few pence in millions of kW, as near to level as whole places allow: the weighed number is then a
// small fraction of a pence-kW on either side of zero.
fn level_on_shallow_line(random: &mut Random) -> Option<Level> {
    let price = random.within(60, plain::MOST_PRICE);
    let drop = random.within(2, 40);
    let width = random.within(1_000_000, plain::MOST_APART);
    let high_price = price - random.within(1, drop - 1);
    let capacity = random.within(1_000, 20_000);
    // Twice the way to the middle of the two places.
    let middle = 2 * width * (price - high_price) / drop + random.below(2);
    let along = middle.checked_sub(capacity)? / 2;
    if along + capacity > width {
        return None;
    }
    let quantity = random.within(1, 100_000_000);
    let corners =
        vec![Corner { quantity, price }, Corner { quantity: quantity + width, price: price - drop }];
    let low_sum = quantity + along;
    Some(Level { shape: Shape::Straight, corners, low_price: high_price, high_price, low_sum, capacity })
}

// The exits around the two places: the one between them, often one before it and one at the cap behind it. Answers the
// capacity that is left to be in.
fn level_exits(
    random: &mut Random,
    level: &Level,
    last: &LastRound,
    exits: &mut Vec<(u64, u64)>,
) -> Option<u64> {
    exits.push((level.capacity, level.high_price));
    if last.cap > level.high_price && random.chance(50) {
        exits.push((random.within(1_000, 5_000), last.cap));
    }
    if last.floor == level.low_price {
        return Some(level.low_sum);
    }
    // Where the two prices are equal, the exit of larger capacity comes before by rule.
    let least = if level.low_price == level.high_price { level.capacity + 1 } else { plain::LEAST_CAPACITY };
    let before = random.within(least, level.low_sum / 2).min(plain::MOST_CAPACITY);
    exits.push((before, level.low_price));
    level.low_sum.checked_sub(before)
}

// A plan whose weighed number is zero, or next to it on either side.
fn level_plan(random: &mut Random) -> Option<Plan> {
    let level = match random.below(5) {
        0 | 1 => level_on_steps(random)?,
        2 | 3 => level_on_lines(random)?,
        _ => level_on_shallow_line(random)?,
    };
    if !(plain::LEAST_CAPACITY..=plain::MOST_CAPACITY).contains(&level.capacity) {
        return None;
    }
    let cap = random.within(level.high_price, level.corners[0].price);
    let at_floor = level.low_price < level.high_price && random.chance(50);
    let floor = if at_floor { level.low_price } else { random.below(level.low_price) };
    let last = LastRound { cap, floor, spread: cap - floor };
    let mut exits = Vec::new();
    let rest = level_exits(random, &level, &last, &mut exits)?;
    let capacity_in = match random.below(4) {
        0 => rest + 1,
        1 => rest.checked_sub(1)?,
        _ => rest,
    };
    let mut names = HashSet::new();
    let mut fates = Vec::new();
    for (capacity, price) in exits {
        let record = drawn_record(random, capacity, &mut names);
        fates.push(Fate { record, years: record.years, leaves: Some((0, price)) });
    }
    let Level { shape, mut corners, .. } = level;
    if random.chance(50) {
        let quantity = corners[0].quantity.saturating_sub(5_000).max(1);
        corners.insert(0, Corner { quantity, price: plain::MOST_PRICE });
    }
    let order = random.pick(&[TieOrder::ByRule, TieOrder::ByName]);
    finished_plan(random, Outline { shape, corners, order, last, fates, capacity_in }, names)
}

fn drawn_plan(random: &mut Random) -> Plan {
    loop {
        let plan = if random.chance(20) { level_plan(random) } else { attempted_plan(random) };
        if let Some(plan) = plan {
            return plan;
        }
    }
}

fn write_terms_and_corners(file: &mut BidFile, plan: &Plan) {
    let curve = if plan.shape == Shape::Straight { 0 } else { 1 };
    let order = if plan.terms.order == TieOrder::ByRule { 0 } else { 1 };
    file.terms(plan.terms.cap, plan.terms.spread, plan.terms.threshold, curve, order);
    for corner in &plan.corners {
        file.corner(corner.quantity, corner.price);
    }
}

fn author_of<'a>(random: &'a mut Random, plan: &Plan) -> Author<'a> {
    let mut file = BidFile::default();
    write_terms_and_corners(&mut file, plan);
    let curve = Curve::new(plan.shape, plan.corners.clone()).expect("a plan has a curve");
    let auction = Auction::open(plan.terms, curve).expect("a plan has terms that open");
    let names = plan.fates.iter().map(|f| f.record.name).collect();
    Author { random, file, auction, names, settled: false }
}

// Enrols the plan's units, with refused records between them; answers the unit number of each.
fn enrol_all(author: &mut Author, plan: &Plan) -> Vec<u64> {
    let mut numbers = Vec::new();
    for (index, fate) in plan.fates.iter().enumerate() {
        if author.random.chance(plan.asides / 5) {
            author.doubtful_refused_unit(plan, index);
        }
        numbers.push(author.count());
        author.unit(&fate.record);
    }
    if author.random.chance(plan.asides) {
        author.doubtful_refused_unit(plan, plan.fates.len());
    }
    // Near the ceiling, one kW more than there is room for.
    let more = plain::CEILING - author.auction.enrolled + 1;
    if more <= plain::MOST_CAPACITY && author.random.chance(70) {
        let capacity = more.max(plain::LEAST_CAPACITY);
        let record = drawn_record(author.random, capacity, &mut author.names);
        author.unit(&record);
    }
    numbers
}

impl Author<'_> {
    // A doubtful unit, made sure to be refused so that the plan's sums hold; now and then it is left to chance.
    fn doubtful_refused_unit(&mut self, plan: &Plan, next: usize) {
        if self.random.chance(10) {
            self.doubtful_unit();
            return;
        }
        let mut record = match plan.fates.get(next) {
            Some(fate) => fate.record,
            None => {
                UnitRecord { capacity: 5_000_000, class: 0, side: 1, years: 1, random: 0, name: *b"EXTRA   " }
            }
        };
        let most = plain::MOST_YEARS[record.class as usize];
        let full = self.auction.enrolled + plain::MOST_CAPACITY > plain::CEILING;
        let first = self.random.below(5);
        for fault in [first, self.random.below(12)] {
            match fault {
                0 => record.capacity = self.random.pick(&[0, 999, 5_000_001, MOST_VALUE]),
                1 => record.class = self.random.pick(&[4, 5, 256, MOST_VALUE]),
                2 => record.years = self.random.pick(&[0, most + 1, 16, MOST_VALUE]),
                3 if full => record.capacity = plain::CEILING - self.auction.enrolled + 1,
                3 | 4 => record.name = doubtful_name(self.random, &self.enrolled_names(plan, next)),
                _ => {}
            }
        }
        self.unit(&record);
    }

    fn enrolled_names(&self, plan: &Plan, next: usize) -> HashSet<[u8; 8]> {
        plan.fates[..next].iter().map(|f| f.record.name).collect()
    }
}

// Writes one round: years of units, the exits of the round in mixed order, and records that change nothing between.
fn write_round(author: &mut Author, plan: &Plan, numbers: &[u64], round: u64) {
    let mut leaving = Vec::new();
    for (fate, &number) in plan.fates.iter().zip(numbers) {
        let stays = fate.leaves.is_none_or(|(leaves, _)| leaves > round);
        let changes = fate.years < fate.record.years;
        if stays && changes && author.random.chance(40) {
            author.years(number, fate.years);
        }
        if let Some((leaves, price)) = fate.leaves {
            if leaves == round {
                leaving.push((number, price, fate.years));
            }
        }
    }
    author.random.shuffle(&mut leaving);
    for (number, price, years) in leaving {
        if author.random.chance(plan.asides) {
            author.aside();
        }
        if author.auction.units.get(number as usize).is_some_and(|u| u.offer.years > years) {
            author.years(number, years);
        }
        author.exit(number, price);
    }
    if author.random.chance(plan.asides) {
        author.aside();
    }
    author.close();
}

fn written(random: &mut Random, plan: &Plan) -> BidFile {
    let mut author = author_of(random, plan);
    let numbers = enrol_all(&mut author, plan);
    for round in 1..=plan.rounds {
        if author.settled && author.random.chance(90) {
            break;
        }
        write_round(&mut author, plan, &numbers, round);
    }
    // Rounds that did not clear as planned go on to the end, most of the time.
    while !author.settled && author.auction.round < 60 && author.random.chance(95) {
        author.close();
    }
    author.file
}

fn planned(random: &mut Random) -> BidFile {
    let plan = drawn_plan(random);
    written(random, &plan)
}

// ---------------------------------------------------------------- edges of the curve's and of Open's questions

// One change to the corners at the edge of questions 1 to 4.
fn change_corners(random: &mut Random, plan: &mut Plan) {
    let at = random.below(plan.corners.len() as u64) as usize;
    let before = if at > 0 { plan.corners[at - 1] } else { Corner { quantity: 0, price: 10_000 } };
    match random.below(14) {
        0 => plan.corners.clear(),
        1 => {
            let count = random.within(14, 18);
            plan.corners.truncate(1);
            let Corner { quantity, price } = plan.corners[0];
            plan.corners.extend((1..count).map(|i| Corner { quantity: quantity + i, price }));
        }
        2 => plan.corners[at].price = 10_000,
        3 => plan.corners[at].price = random.pick(&[10_001, 10_001, MOST_VALUE]),
        4 => plan.corners[at].quantity = random.within(0, 1),
        5 => plan.corners[at].quantity = 200_000_000,
        6 => plan.corners[at].quantity = random.pick(&[200_000_001, MOST_VALUE]),
        7 => plan.corners[at].quantity = before.quantity,
        8 => plan.corners[at].quantity = before.quantity + 1,
        9 => plan.corners[at].price = before.price + random.below(2),
        10 => stretch(plan, at, 10_000_000),
        _ => {
            stretch(plan, at, 10_000_001);
            plan.shape = random.pick(&[plan.shape, Shape::Straight]);
        }
    }
}

// Puts a corner this far from the one before it and moves the later ones along.
fn stretch(plan: &mut Plan, at: usize, distance: u64) {
    if at == 0 {
        let Corner { quantity, price } = plan.corners[0];
        plan.corners.truncate(1);
        plan.corners.push(Corner { quantity: quantity + distance, price: price.saturating_sub(1) });
        return;
    }
    let old = plan.corners[at].quantity - plan.corners[at - 1].quantity.min(plan.corners[at].quantity);
    for corner in &mut plan.corners[at..] {
        corner.quantity = corner.quantity + distance - old.min(corner.quantity);
    }
}

// A file whose words were written for one curve and whose corners are then changed.
fn at_curve_edge(random: &mut Random) -> BidFile {
    let mut plan = drawn_plan(random);
    let whole = written(random, &plan);
    let former = plan.corners.len();
    for _ in 0..random.within(1, 2) {
        if !plan.corners.is_empty() {
            change_corners(random, &mut plan);
        }
    }
    let mut file = BidFile::default();
    write_terms_and_corners(&mut file, &plan);
    if random.chance(90) {
        let from = 5 + 2 * former;
        let now = file.words.len();
        file.heads.extend(whole.heads[1 + former..].iter().map(|head| head - from + now));
        file.words.extend_from_slice(&whole.words[from..]);
    }
    file
}

fn at_terms_edge(random: &mut Random) -> BidFile {
    let mut plan = drawn_plan(random);
    let mut file = written(random, &plan);
    for _ in 0..random.within(1, 2) {
        let terms = &mut plan.terms;
        match random.below(10) {
            0 => terms.cap = 0,
            1 => terms.cap = random.pick(&[10_001, MOST_VALUE]),
            2 => terms.cap = plan.corners[0].price,
            3 => terms.cap = plan.corners[0].price + 1,
            4 => terms.spread = 0,
            5 => terms.spread = terms.cap,
            6 => terms.spread = terms.cap + 1,
            7 => terms.threshold = terms.cap,
            8 => terms.threshold = terms.cap + 1,
            _ => terms.threshold = random.pick(&[0, MOST_VALUE]),
        }
    }
    file.words[0] = 1 << 28 | plan.terms.cap as u32 & MOST_VALUE as u32;
    file.words[1] = plan.terms.spread as u32 & MOST_VALUE as u32;
    file.words[2] = plan.terms.threshold as u32 & MOST_VALUE as u32;
    if random.chance(10) {
        file.words.truncate(5 + 2 * plan.corners.len());
    }
    file
}

// ---------------------------------------------------------------- many rounds, many units, many entries

// A clock of small spread with more capacity in than the curve wants at 1, so that it runs for long.
fn many_rounds(random: &mut Random) -> BidFile {
    let mut plan = drawn_plan(random);
    let highest = random.pick(&[200, 1_000, 1_000, 10_000]);
    let quantity = random.within(2_000, 100_000);
    plan.corners = vec![
        Corner { quantity, price: highest },
        Corner { quantity: quantity + random.within(1, 5_000), price: 0 },
    ];
    plan.terms.cap = highest;
    plan.terms.spread = random.within(1, 3);
    plan.terms.threshold = random.within(0, highest);
    plan.fates.truncate(1);
    let mut author = author_of(random, &plan);
    for _ in 0..author.random.within(2, 60) {
        let capacity = author.random.within(1_000, 9_000);
        let mut record = drawn_record(author.random, capacity, &mut author.names);
        record.side = author.random.below(2);
        author.unit(&record);
    }
    let most = author.random.within(100, 11_000);
    let busy = author.random.pick(&[0, 1, 10]);
    for _ in 0..most {
        if author.settled || author.file.words.len() > 16_000 {
            break;
        }
        if author.random.chance(busy) {
            author.tried_entry();
        }
        author.close();
    }
    author.file
}

// Fills the enrolment up to its bound, the entries of a round up to theirs, and goes beyond both.
fn crowded(random: &mut Random) -> BidFile {
    let mut plan = drawn_plan(random);
    plan.fates.truncate(1);
    let mut author = author_of(random, &plan);
    let count = author.random.pick(&[72, 100, 300, 511, 512, 513, 515]);
    let share = author.random.pick(&[1_000, 20_000, 390_625, 400_000]);
    for _ in 0..count {
        let capacity = if author.random.chance(70) { share } else { author.random.within(1_000, share) };
        let mut record = drawn_record(author.random, capacity, &mut author.names);
        if author.random.chance(80) {
            (record.class, record.years) = (2, 15);
        }
        record.side = u64::from(author.random.chance(80));
        author.unit(&record);
    }
    let rounds = author.random.within(1, 3);
    for _ in 0..rounds {
        if !author.settled {
            fill_entries(&mut author);
            author.close();
        }
    }
    author.file
}

// One year fewer from unit to unit, then exits, until the entries of the round are at the bound.
fn fill_entries(author: &mut Author) {
    let goal = author.random.pick(&[1_020, 1_024, 1_025, 1_030]);
    for _ in 0..2_400 {
        if author.auction.entries.len() >= goal.min(plain::MOST_ENTRIES) || author.file.words.len() > 14_000 {
            break;
        }
        let unit = author.some_unit();
        let now = author.auction.units.get(unit as usize).map_or(1, |u| u.offer.years);
        if now > 1 && author.random.chance(85) {
            author.years(unit, now - 1);
        } else if author.random.chance(60) {
            let price = author.fair_price();
            author.exit(unit, price);
        }
        if author.random.chance(1) {
            author.step_back();
        }
    }
    for _ in 0..goal.saturating_sub(plain::MOST_ENTRIES) * 3 {
        author.tried_entry();
        if author.random.chance(25) {
            author.step_back();
        }
    }
    for _ in 0..author.random.pick(&[0, 0, 3, 1_030]) {
        author.step_back();
    }
}

// ---------------------------------------------------------------- lengths and loose words

// Files at the edges of question 23 and of the largest length.
fn sized(random: &mut Random) -> Vec<u8> {
    let plan = drawn_plan(random);
    let whole = written(random, &plan);
    let start = 5 + 2 * plan.corners.len();
    let filler = match random.below(5) {
        0 => 6 << 28,
        1 => 7 << 28,
        _ => 2 << 28,
    };
    let mut words = whole.words.clone();
    let length = random.pick(&[16_382, 16_383, 16_383, 16_383, 16_384, 16_385, 30_000]);
    if filler == 2 << 28 {
        // Corners without end: the pair of words is a corner record.
        let mut corners = plan.corners.last().map_or(1, |c| c.quantity) as u32;
        words.truncate(start);
        while words.len() + 2 <= length {
            corners += 1;
            words.extend([2 << 28 | corners & MOST_VALUE as u32, 0]);
        }
    } else if words.len() < length {
        // Step backs in round 1 are refused; closes go on until the auction settles.
        let at = whole.heads.iter().copied().find(|&head| words[head] >> 28 >= 4).unwrap_or(words.len());
        let missing = length - words.len();
        words.splice(at..at, std::iter::repeat_n(filler, missing));
    }
    let mut bytes: Vec<u8> = words.iter().flat_map(|word| word.to_be_bytes()).collect();
    if random.chance(20) {
        bytes.extend((0..random.within(1, 3)).map(|_| 0u8));
    }
    bytes
}

// A few words with kinds and values drawn without regard to the order of records, or plain bytes.
fn loose_words(random: &mut Random) -> Vec<u8> {
    if random.chance(30) {
        return (0..random.below(80)).map(|_| random.next() as u8).collect();
    }
    let mut file = BidFile::default();
    for _ in 0..random.within(1, 12) {
        let kind = if random.chance(80) { random.within(1, 7) as u32 } else { random.below(16) as u32 };
        let lengths = [0, 4, 1, 6, 1, 1, 0, 0];
        let length = lengths.get(kind as usize).copied().unwrap_or(0);
        let operands: Vec<u64> = (0..length).map(|_| random.below(3)).collect();
        let value = random.pick(&[0, 0, 1, 1_000, 7_000, MOST_VALUE]);
        file.record(kind, value, &operands);
    }
    file.bytes()
}

// ---------------------------------------------------------------- damage

fn some_head(random: &mut Random, file: &BidFile) -> usize {
    // The later half is drawn more often, so that more of the file runs before the damage.
    let count = file.heads.len() as u64;
    let least = if random.chance(60) { count / 2 } else { 0 };
    file.heads[random.within(least, count - 1) as usize]
}

// The head of a record of one of these kinds, if there is one.
fn head_of_kind(random: &mut Random, file: &BidFile, kinds: &[u32]) -> Option<usize> {
    let heads: Vec<usize> =
        file.heads.iter().copied().filter(|&head| kinds.contains(&(file.words[head] >> 28))).collect();
    if heads.is_empty() {
        None
    } else {
        Some(random.pick(&heads))
    }
}

fn record_words(file: &BidFile, head: usize) -> std::ops::Range<usize> {
    let next = file.heads.iter().copied().find(|&other| other > head).unwrap_or(file.words.len());
    head..next
}

// A record of any kind, right or wrong, as loose words.
fn stray_record(random: &mut Random) -> Vec<u32> {
    let kind = random.below(16) as u32;
    let lengths = [1, 5, 2, 7, 2, 2, 1, 1];
    let length: usize = lengths.get(kind as usize).copied().unwrap_or(1);
    let mut words = vec![0u32; length];
    words[0] = kind << 28 | random.pick(&[0, 0, 0, 1, 1_000]);
    if random.chance(10) {
        words.truncate(length.max(2) - 1);
    }
    words
}

fn wrong_field(random: &mut Random, file: &mut BidFile) {
    let wrong = random.pick(&[2, 3, 256, MOST_VALUE as u32]);
    let kinds = random.pick(&[[1, 1], [3, 3], [6, 7], [7, 7]]);
    let Some(head) = head_of_kind(random, file, &kinds) else { return };
    match kinds[0] {
        1 => file.words[head + 3 + random.below(2) as usize] = wrong,
        3 => file.words[head + 2] = wrong,
        _ => file.words[head] |= random.pick(&[1, 1, 2, 256, MOST_VALUE as u32]),
    }
}

// Damage to one record of a file.
fn damage_record(random: &mut Random, file: &mut BidFile, way: u64) {
    let head = some_head(random, file);
    match way {
        0 => {
            let kind = random.pick(&[0, 0, 8, 9, 10, 11, 12, 13, 14, 15]);
            file.words[head] = file.words[head] & MOST_VALUE as u32 | kind << 28;
        }
        1 => {
            if let Some(head) = head_of_kind(random, file, &[1, 2, 3, 4, 5]) {
                let range = record_words(file, head);
                let operand = random.within(head as u64 + 1, range.end as u64 - 1) as usize;
                file.words[operand] |= random.pick(&[1, 8, 4, 15]) << 28;
            }
        }
        2 => wrong_field(random, file),
        3 => {
            let stray = stray_record(random);
            file.words.splice(head..head, stray);
        }
        4 => {
            let range = record_words(file, head);
            file.words.drain(range);
        }
        5 => {
            let range = record_words(file, head);
            let copy: Vec<u32> = file.words[range].to_vec();
            let at = some_head(random, file);
            file.words.splice(at..at, copy);
        }
        _ => {
            let at = random.below(file.words.len() as u64) as usize;
            let change = random.pick(&[1, u32::MAX, 1 << 28, 2, 1_000]);
            file.words[at] = file.words[at].wrapping_add(change);
        }
    }
}

fn damaged(random: &mut Random, file: BidFile) -> Vec<u8> {
    let mut file = file;
    let way = random.below(14);
    match way {
        0..=6 => damage_record(random, &mut file, way),
        7 => {
            let length = random.within(1, file.words.len() as u64) as usize;
            file.words.truncate(length);
        }
        8 => {
            let head = some_head(random, &file);
            file.words.truncate(head);
        }
        9 | 10 => {
            for _ in 0..random.within(1, 3) {
                file.words.extend(stray_record(random));
            }
        }
        _ => {}
    }
    let mut bytes = file.bytes();
    match way {
        11 => bytes.extend((0..random.within(1, 3)).map(|_| 0u8)),
        12 | 13 => {
            for _ in 0..random.within(1, 4) {
                let at = random.below(bytes.len() as u64) as usize;
                bytes[at] ^= 1 << random.below(8);
            }
        }
        _ => {}
    }
    bytes
}
