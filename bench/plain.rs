// The rules of the rehearsal auction in ordinary Rust, written from the pages in docs/ alone.

use std::cmp::{Ordering, Reverse};
use std::collections::HashSet;

pub const CEILING: u64 = 200_000_000;
pub const MOST_PRICE: u64 = 10_000;
pub const MOST_CORNERS: usize = 16;
pub const MOST_APART: u64 = 10_000_000;
pub const MOST_UNITS: usize = 512;
pub const LEAST_CAPACITY: u64 = 1_000;
pub const MOST_CAPACITY: u64 = 5_000_000;
pub const MOST_ENTRIES: usize = 1_024;
pub const MOST_BYTES: usize = 65_532;

// The most years of classes 0 to 3.
pub const MOST_YEARS: [u64; 4] = [1, 3, 15, 1];

// The number of the first question that is answered "no".
pub type Question = u64;

// ---------------------------------------------------------------- curves

#[derive(Clone, Copy, Debug, PartialEq)]
pub struct Corner {
    pub quantity: u64,
    pub price: u64,
}

#[derive(Clone, Copy, Debug, PartialEq)]
pub enum Shape {
    Straight,
    Stepped,
}

#[derive(Clone, Debug)]
pub struct Curve {
    shape: Shape,
    corners: Vec<Corner>,
}

// An area of (halves + part / width) / 2 pence-kW; the part is that of the segment in which the place lies.
struct Area {
    halves: i128,
    part: i128,
    width: i128,
}

impl Curve {
    pub fn new(shape: Shape, corners: Vec<Corner>) -> Result<Curve, Question> {
        if corners.is_empty() || corners.len() > MOST_CORNERS {
            return Err(1);
        }
        let allowed = |c: &Corner| c.price <= MOST_PRICE && (1..=CEILING).contains(&c.quantity);
        if !corners.iter().all(allowed) {
            return Err(2);
        }
        let in_order =
            |pair: &[Corner]| pair[0].quantity < pair[1].quantity && pair[0].price >= pair[1].price;
        if !corners.windows(2).all(in_order) {
            return Err(3);
        }
        let near = |pair: &[Corner]| pair[1].quantity - pair[0].quantity <= MOST_APART;
        if shape == Shape::Straight && !corners.windows(2).all(near) {
            return Err(4);
        }
        Ok(Curve { shape, corners })
    }

    // The farthest place with a price of at least this one, rounded up to a whole kW.
    pub fn demand(&self, price: u64) -> u64 {
        if price == 0 {
            return CEILING;
        }
        let reached = self.corners.partition_point(|c| c.price >= price);
        if reached == 0 {
            return 0;
        }
        let last = self.corners[reached - 1];
        match (self.shape, self.corners.get(reached)) {
            (Shape::Straight, Some(next)) => {
                let width = next.quantity - last.quantity;
                last.quantity + ((last.price - price) * width).div_ceil(last.price - next.price)
            }
            _ => last.quantity,
        }
    }

    // Compares the area between two places with a sum of pence-kW. Both sides are multiplied by both widths.
    pub fn weigh(&self, from: u64, to: u64, sum: i64) -> Ordering {
        let low = self.area(from);
        let high = self.area(to);
        let halves = high.halves - low.halves - 2 * i128::from(sum);
        let weighed = halves * low.width * high.width + high.part * low.width - low.part * high.width;
        weighed.cmp(&0)
    }

    // The area from 0 to the place. The level part up to the first corner counts as a segment.
    fn area(&self, place: u64) -> Area {
        let mut halves = 0;
        let mut before = Corner { quantity: 0, price: self.corners[0].price };
        for &corner in &self.corners {
            let start = match self.shape {
                Shape::Straight => before.price,
                Shape::Stepped => corner.price,
            };
            let width = i128::from(corner.quantity - before.quantity);
            if place < corner.quantity {
                let along = i128::from(place - before.quantity);
                let drop = i128::from(start - corner.price);
                let part = along * (2 * i128::from(start) * width - drop * along);
                return Area { halves, part, width };
            }
            halves += width * i128::from(start + corner.price);
            before = corner;
        }
        Area { halves, part: 0, width: 1 }
    }
}

// ---------------------------------------------------------------- names, units, orders

// A name is kept as one big-endian number, so that names compare byte by byte.
pub fn well_formed(name: u64) -> bool {
    let bytes = name.to_be_bytes();
    let is_character = |b: &u8| matches!(b, b'A'..=b'Z' | b'0'..=b'9' | b'-');
    let characters = bytes.iter().take_while(|b| is_character(b)).count();
    characters > 0 && bytes[characters..].iter().all(|&b| b == b' ')
}

#[derive(Clone, Copy, Debug, PartialEq)]
pub enum Side {
    Taker,
    Maker,
}

#[derive(Clone, Copy, Debug, PartialEq)]
pub enum TieOrder {
    ByRule,
    ByName,
}

// What a unit is enrolled with.
#[derive(Clone, Copy, Debug)]
pub struct Offer {
    pub capacity: u64,
    pub class: u64,
    pub side: Side,
    pub years: u64,
    pub random: u64,
    pub name: u64,
}

// The offer's years are the unit's years now; a unit with an exit price is out.
#[derive(Clone, Copy, Debug)]
pub struct Unit {
    pub offer: Offer,
    pub exit_price: Option<u64>,
}

// An exit of the present round, with what a tie order looks at.
#[derive(Clone, Copy, Debug)]
pub struct Exit {
    pub unit: usize,
    pub price: u64,
    pub capacity: u64,
    pub years: u64,
    pub random: u64,
    pub name: u64,
}

// The exit ranking: the lower price ahead, equal prices by the tie order.
pub fn rank(exits: &mut [Exit], order: TieOrder) {
    match order {
        TieOrder::ByRule => {
            exits.sort_unstable_by_key(|e| (e.price, Reverse(e.capacity), e.years, e.random, e.unit))
        }
        TieOrder::ByName => exits.sort_unstable_by_key(|e| (e.price, e.name, e.unit)),
    }
}

// ---------------------------------------------------------------- the auction

#[derive(Clone, Copy, Debug)]
pub struct Terms {
    pub cap: u64,
    pub spread: u64,
    pub threshold: u64,
    pub order: TieOrder,
}

// An entry of the present round that stands, with what stepping back needs.
#[derive(Clone, Copy, Debug)]
pub enum Entry {
    Exit { unit: usize },
    Years { unit: usize, former: u64 },
}

#[derive(Clone, Debug)]
pub struct Auction {
    pub curve: Curve,
    pub terms: Terms,
    pub round: u64,
    pub cap: u64,
    pub floor: u64,
    pub units: Vec<Unit>,
    names: HashSet<u64>,
    pub enrolled: u64,
    pub capacity_in: u64,
    pub entries: Vec<Entry>,
}

#[derive(Clone, Debug)]
pub struct Settlement {
    pub price: u64,
    pub ground: u64,
    pub stop: usize,
    pub ranked: Vec<Exit>,
}

// The figures of a round that was closed; a round that did not clear has no settlement.
#[derive(Clone, Debug)]
pub struct Closing {
    pub round: u64,
    pub cap: u64,
    pub floor: u64,
    pub capacity_in: u64,
    pub demand: u64,
    pub settlement: Option<Settlement>,
}

// A row of the roll; rows compare by name, then by unit number.
#[derive(Clone, Copy, Debug, PartialEq, Eq, PartialOrd, Ord)]
pub struct Row {
    pub name: u64,
    pub unit: usize,
    pub capacity: u64,
    pub years: u64,
}

// A place in the ranking: place 0 is the floor, place i is exit i.
struct Place {
    price: u64,
    sum: u64,
    demand: u64,
}

impl Auction {
    pub fn open(terms: Terms, curve: Curve) -> Result<Auction, Question> {
        if !(1..=MOST_PRICE).contains(&terms.cap) || curve.demand(terms.cap) == 0 {
            return Err(6);
        }
        if !(1..=terms.cap).contains(&terms.spread) {
            return Err(7);
        }
        if terms.threshold > terms.cap {
            return Err(8);
        }
        Ok(Auction {
            curve,
            terms,
            round: 1,
            cap: terms.cap,
            floor: terms.cap - terms.spread,
            units: Vec::with_capacity(MOST_UNITS),
            names: HashSet::with_capacity(MOST_UNITS),
            enrolled: 0,
            capacity_in: 0,
            entries: Vec::with_capacity(MOST_ENTRIES),
        })
    }

    pub fn enrol(&mut self, offer: Offer) -> Result<(), Question> {
        if self.units.len() >= MOST_UNITS {
            return Err(10);
        }
        if !(LEAST_CAPACITY..=MOST_CAPACITY).contains(&offer.capacity) {
            return Err(11);
        }
        if self.enrolled + offer.capacity > CEILING {
            return Err(12);
        }
        let most = MOST_YEARS.get(offer.class as usize).copied().unwrap_or(0);
        if !(1..=most).contains(&offer.years) {
            return Err(13);
        }
        if !well_formed(offer.name) || !self.names.insert(offer.name) {
            return Err(14);
        }
        self.enrolled += offer.capacity;
        self.capacity_in += offer.capacity;
        self.units.push(Unit { offer, exit_price: None });
        Ok(())
    }

    // Questions 15 and 16, asked by Exit and by Years.
    fn unit_in(&self, unit: u64) -> Result<usize, Question> {
        let number = unit as usize;
        match self.units.get(number) {
            None => Err(15),
            Some(found) if found.exit_price.is_some() => Err(16),
            Some(_) => Ok(number),
        }
    }

    fn room_for_entry(&self) -> Result<(), Question> {
        if self.entries.len() < MOST_ENTRIES {
            Ok(())
        } else {
            Err(20)
        }
    }

    pub fn exit(&mut self, unit: u64, price: u64) -> Result<(), Question> {
        let number = self.unit_in(unit)?;
        if price <= self.floor || price > self.cap {
            return Err(17);
        }
        if self.units[number].offer.side == Side::Taker && price > self.terms.threshold {
            return Err(18);
        }
        self.room_for_entry()?;
        self.units[number].exit_price = Some(price);
        self.capacity_in -= self.units[number].offer.capacity;
        self.entries.push(Entry::Exit { unit: number });
        Ok(())
    }

    pub fn years(&mut self, unit: u64, years: u64) -> Result<(), Question> {
        let number = self.unit_in(unit)?;
        let former = self.units[number].offer.years;
        if years < 1 || years >= former {
            return Err(19);
        }
        self.room_for_entry()?;
        self.units[number].offer.years = years;
        self.entries.push(Entry::Years { unit: number, former });
        Ok(())
    }

    pub fn step_back(&mut self) -> Result<(), Question> {
        match self.entries.pop() {
            None => return Err(21),
            Some(Entry::Exit { unit }) => {
                self.units[unit].exit_price = None;
                self.capacity_in += self.units[unit].offer.capacity;
            }
            Some(Entry::Years { unit, former }) => self.units[unit].offer.years = former,
        }
        Ok(())
    }

    // Closes the round; if it does not clear, the next round is open afterwards.
    pub fn close(&mut self) -> Closing {
        let demand = self.curve.demand(self.floor);
        let clears = self.capacity_in <= demand;
        let closing = Closing {
            round: self.round,
            cap: self.cap,
            floor: self.floor,
            capacity_in: self.capacity_in,
            demand,
            settlement: if clears { Some(self.settle()) } else { None },
        };
        if !clears {
            self.round += 1;
            self.cap = self.floor;
            self.floor = self.cap.saturating_sub(self.terms.spread);
            self.entries.clear();
        }
        closing
    }

    fn ranked_exits(&self) -> Vec<Exit> {
        let mut exits = Vec::with_capacity(self.entries.len());
        for entry in &self.entries {
            if let Entry::Exit { unit } = *entry {
                let Unit { offer, exit_price } = self.units[unit];
                let Offer { capacity, years, random, name, .. } = offer;
                exits.push(Exit { unit, price: exit_price.unwrap_or(0), capacity, years, random, name });
            }
        }
        rank(&mut exits, self.terms.order);
        exits
    }

    // Place 0 and the places of the ranked exits, with the sums S and the demands D(p).
    fn places(&self, ranked: &[Exit]) -> Vec<Place> {
        let mut places = Vec::with_capacity(ranked.len() + 1);
        let mut sum = self.capacity_in;
        places.push(Place { price: self.floor, sum, demand: self.curve.demand(self.floor) });
        for exit in ranked {
            sum += exit.capacity;
            places.push(Place { price: exit.price, sum, demand: self.curve.demand(exit.price) });
        }
        places
    }

    fn settle(&self) -> Settlement {
        let ranked = self.ranked_exits();
        let places = self.places(&ranked);
        let (ground, stop) = self.ground_and_stop(&places);
        Settlement { price: places[stop].price, ground, stop, ranked }
    }

    // The table of grounds, read row by row.
    fn ground_and_stop(&self, places: &[Place]) -> (u64, usize) {
        let meets = |place: &Place| place.sum == place.demand;
        if let Some(met) = places.iter().position(meets) {
            return (if met == 0 { 1 } else { 2 }, met);
        }
        let exits = &places[1..];
        let last = exits.iter().take_while(|place| place.sum <= place.demand).count();
        if last == exits.len() {
            return (3, last);
        }
        let (low, high) = (&places[last], &places[last + 1]);
        let sum = (high.price * high.sum) as i64 - (low.price * low.sum) as i64;
        match self.curve.weigh(low.sum, high.sum, sum) {
            Ordering::Greater => (4, last + 1),
            _ => (5, last),
        }
    }

    // The awarded units: those still in and the first exits up to the stopping place.
    pub fn roll(&self, settlement: &Settlement) -> Vec<Row> {
        let mut rows = Vec::with_capacity(self.units.len());
        let mut award = |number: usize| {
            let Offer { name, capacity, years, .. } = self.units[number].offer;
            rows.push(Row { name, unit: number, capacity, years });
        };
        for (number, unit) in self.units.iter().enumerate() {
            if unit.exit_price.is_none() {
                award(number);
            }
        }
        for exit in &settlement.ranked[..settlement.stop] {
            award(exit.unit);
        }
        rows.sort_unstable();
        rows
    }
}

// ---------------------------------------------------------------- the listing

struct Listing {
    bytes: Vec<u8>,
}

impl Listing {
    fn text(&mut self, text: &str) {
        self.bytes.extend_from_slice(text.as_bytes());
    }

    // Digits are gathered from the last one forward.
    fn number(&mut self, value: u64) {
        let mut digits = [0u8; 20];
        let mut start = digits.len();
        let mut rest = value;
        loop {
            start -= 1;
            digits[start] = b'0' + (rest % 10) as u8;
            rest /= 10;
            if rest == 0 {
                break;
            }
        }
        self.bytes.extend_from_slice(&digits[start..]);
    }

    // Writes each text followed by its number, and ends the line.
    fn line(&mut self, parts: &[(&str, u64)]) {
        for &(text, value) in parts {
            self.text(text);
            self.number(value);
        }
        self.bytes.push(b'\n');
    }

    fn award(&mut self, row: &Row) {
        self.text("AWARD ");
        let name = row.name.to_be_bytes();
        let length = name.iter().position(|&b| b == b' ').unwrap_or(name.len());
        self.bytes.extend_from_slice(&name[..length]);
        self.line(&[(" ", row.capacity), (" ", row.years)]);
    }

    fn closing(&mut self, closing: &Closing) {
        self.line(&[
            ("ROUND ", closing.round),
            (" CAP ", closing.cap),
            (" FLOOR ", closing.floor),
            (" IN ", closing.capacity_in),
            (" DEMAND ", closing.demand),
        ]);
    }

    fn fault(&mut self, fault: &Fault) {
        self.text("FAULT ");
        self.text(fault.layer);
        self.line(&[(" ", fault.question), (" WORD ", fault.place as u64)]);
    }
}

// ---------------------------------------------------------------- the bid file

struct Fault {
    layer: &'static str,
    question: Question,
    place: usize,
}

// What may come next: the terms, corners, units or entries; nothing once settled.
#[derive(Clone, Copy, PartialEq)]
enum Stage {
    Terms,
    Corners,
    Units,
    Rounds,
    Settled,
}

// How many words a record has, by kind; kinds 0 and 8 to 15 are no records.
const RECORD_WORDS: [usize; 16] = [0, 5, 2, 7, 2, 2, 1, 1, 0, 0, 0, 0, 0, 0, 0, 0];
const NAME_WORDS: usize = 2;

fn kind(word: u32) -> usize {
    (word >> 28) as usize
}

fn value(word: u32) -> u64 {
    u64::from(word & 0x0FFF_FFFF)
}

struct Run {
    listing: Listing,
    stage: Stage,
    shape: Shape,
    terms: Terms,
    corners: Vec<Corner>,
    auction: Option<Auction>,
}

// Questions 24 and 25: the record that begins at this place.
fn record_at(words: &[u32], place: usize) -> Result<&[u32], Question> {
    let head = kind(words[place]);
    let length = RECORD_WORDS[head];
    if length == 0 {
        return Err(24);
    }
    let record = words.get(place..place + length).ok_or(25u64)?;
    let operands = if head == 3 { &record[1..length - NAME_WORDS] } else { &record[1..] };
    if operands.iter().any(|&word| kind(word) != 0) {
        return Err(25);
    }
    Ok(record)
}

// Question 26.
fn in_turn(stage: Stage, head: usize) -> bool {
    match head {
        1 => stage == Stage::Terms,
        2 => stage == Stage::Corners,
        3 => stage == Stage::Corners || stage == Stage::Units,
        _ => stage != Stage::Terms && stage != Stage::Settled,
    }
}

// Question 27.
fn fields_right(record: &[u32]) -> bool {
    match kind(record[0]) {
        1 => value(record[3]) <= 1 && value(record[4]) <= 1,
        3 => value(record[2]) <= 1,
        6 | 7 => value(record[0]) == 0,
        _ => true,
    }
}

fn offer_of(record: &[u32]) -> Offer {
    Offer {
        capacity: value(record[0]),
        class: value(record[1]),
        side: if value(record[2]) == 0 { Side::Taker } else { Side::Maker },
        years: value(record[3]),
        random: value(record[4]),
        name: u64::from(record[5]) << 32 | u64::from(record[6]),
    }
}

impl Run {
    fn new() -> Run {
        Run {
            listing: Listing { bytes: Vec::new() },
            stage: Stage::Terms,
            shape: Shape::Straight,
            terms: Terms { cap: 0, spread: 0, threshold: 0, order: TieOrder::ByRule },
            corners: Vec::new(),
            auction: None,
        }
    }

    fn keep_terms(&mut self, record: &[u32]) {
        self.terms = Terms {
            cap: value(record[0]),
            spread: value(record[1]),
            threshold: value(record[2]),
            order: if value(record[4]) == 0 { TieOrder::ByRule } else { TieOrder::ByName },
        };
        self.shape = if value(record[3]) == 0 { Shape::Straight } else { Shape::Stepped };
        self.stage = Stage::Corners;
    }

    // Makes the curve and opens the auction, once.
    fn opened(&mut self) -> Result<&mut Auction, Fault> {
        if self.auction.is_none() {
            let corners = std::mem::take(&mut self.corners);
            let curve = Curve::new(self.shape, corners).map_err(|question| Fault {
                layer: "CURVE",
                question,
                place: 0,
            })?;
            let auction = Auction::open(self.terms, curve).map_err(|question| Fault {
                layer: "AUCTION",
                question,
                place: 0,
            })?;
            self.auction = Some(auction);
        }
        Ok(self.auction.as_mut().expect("opened above"))
    }

    // Runs the record at this place and answers how many words it has.
    fn step(&mut self, words: &[u32], place: usize) -> Result<usize, Fault> {
        let file_fault = |question| Fault { layer: "FILE", question, place };
        let record = record_at(words, place).map_err(file_fault)?;
        let head = kind(record[0]);
        if !in_turn(self.stage, head) {
            return Err(file_fault(26));
        }
        if !fields_right(record) {
            return Err(file_fault(27));
        }
        match head {
            1 => self.keep_terms(record),
            2 => self.corners.push(Corner { quantity: value(record[0]), price: value(record[1]) }),
            _ => self.call(record, head, place)?,
        }
        Ok(record.len())
    }

    // Makes the call of a record of kind 3 to 7.
    fn call(&mut self, record: &[u32], head: usize, place: usize) -> Result<(), Fault> {
        let auction = self.opened()?;
        let answer = match head {
            3 => auction.enrol(offer_of(record)),
            4 => auction.exit(value(record[0]), value(record[1])),
            5 => auction.years(value(record[0]), value(record[1])),
            6 => auction.step_back(),
            _ => Ok(()),
        };
        self.stage = if head == 3 { Stage::Units } else { Stage::Rounds };
        if head == 7 {
            self.close();
        }
        if let Err(question) = answer {
            self.listing.line(&[("REFUSED ", question), (" WORD ", place as u64)]);
        }
        Ok(())
    }

    fn close(&mut self) {
        let Some(auction) = self.auction.as_mut() else { return };
        let closing = auction.close();
        self.listing.closing(&closing);
        if let Some(settlement) = &closing.settlement {
            self.listing.line(&[("CLEARED ", settlement.price), (" GROUND ", settlement.ground)]);
            for row in &auction.roll(settlement) {
                self.listing.award(row);
            }
            self.stage = Stage::Settled;
        }
    }

    fn file(&mut self, words: &[u32]) -> Result<(), Fault> {
        if words.is_empty() {
            return Err(Fault { layer: "FILE", question: 26, place: 0 });
        }
        let mut place = 0;
        while place < words.len() {
            place += self.step(words, place)?;
        }
        self.opened().map(|_| ())
    }
}

// The listing of a bid file. Of a file that is too long, any part of more than 65,532 bytes will do.
pub fn listing(bytes: &[u8]) -> Vec<u8> {
    let mut run = Run::new();
    let end = if bytes.len() % 4 != 0 || bytes.len() > MOST_BYTES {
        Err(Fault { layer: "FILE", question: 23, place: 0 })
    } else {
        let word = |b: &[u8]| u32::from_be_bytes([b[0], b[1], b[2], b[3]]);
        let words: Vec<u32> = bytes.chunks_exact(4).map(word).collect();
        run.file(&words)
    };
    match end {
        Err(fault) => run.listing.fault(&fault),
        Ok(()) if run.stage != Stage::Settled => run.listing.text("UNSETTLED\n"),
        Ok(()) => {}
    }
    run.listing.bytes
}
