// Checks the plain program against the worked figures of docs/figures.md and the edges named in docs/, as far as a bid
// file shows them.

#[allow(dead_code)]
mod plain;
#[allow(dead_code)]
mod records;

use records::{padded, BidFile, UnitRecord};
use std::process::ExitCode;

const WORKED: &str = "\
10001B58 00000BB8 000009C4 00000000 00000000 20002710 00001B58 20004E20 00000FA0 20007530 00000000 \
30002328 00000000 00000001 00000001 00000004 484F4C54 2D312020 \
30002710 00000000 00000000 00000001 00000009 4245434B 2D322020 \
30000578 00000002 00000001 0000000F 00000002 434F4D42 452D3320 \
300003E8 00000003 00000001 00000001 00000007 44414C45 2D342020 \
300007D0 00000001 00000001 00000003 00000005 45444745 2D352020 \
40000004 00001388 70000000 40000001 00000E10 50000002 0000000A 40000000 00000ED8 60000000 \
40000003 00000E10 40000002 00000E10 70000000";

const WORKED_LISTING: &str = "\
ROUND 1 CAP 7000 FLOOR 4000 IN 21400 DEMAND 20000
REFUSED 18 WORD 49
ROUND 2 CAP 4000 FLOOR 1000 IN 19000 DEMAND 27500
CLEARED 3600 GROUND 4
AWARD BECK-2 10000 1
AWARD COMBE-3 1400 10
AWARD DALE-4 1000 1
AWARD HOLT-1 9000 1
";

const STRAIGHT: u64 = 0;
const STEPPED: u64 = 1;

struct Check {
    wrong: u32,
    done: u32,
}

impl Check {
    // The listing must be these lines, or begin or end with them.
    fn that(&mut self, what: &str, right: bool, found: &str) {
        self.done += 1;
        if !right {
            self.wrong += 1;
            println!("WRONG {what}\n{found}");
        }
    }

    fn equal(&mut self, what: &str, file: &BidFile, lines: &str) {
        let found = listing(&file.bytes());
        self.that(what, found == lines, &found);
    }

    fn has(&mut self, what: &str, file: &BidFile, part: &str) {
        let found = listing(&file.bytes());
        self.that(what, found.contains(part), &found);
    }
}

fn listing(bytes: &[u8]) -> String {
    String::from_utf8(plain::listing(bytes)).expect("a listing is text")
}

fn worked_words() -> Vec<u32> {
    let word = |text: &str| u32::from_str_radix(text, 16).expect("a word in hexadecimal");
    WORKED.split_whitespace().map(word).collect()
}

fn file_of(words: Vec<u32>) -> BidFile {
    BidFile { words, heads: Vec::new() }
}

// Curve K's corners under these terms; the threshold is the cap.
fn over_k(curve: u64, cap: u64, spread: u64) -> BidFile {
    let mut file = BidFile::default();
    file.terms(cap, spread, cap, curve, 0);
    for (quantity, price) in [(10_000, 7_000), (20_000, 4_000), (30_000, 0)] {
        file.corner(quantity, price);
    }
    file
}

fn maker(file: &mut BidFile, capacity: u64, name: &str) {
    file.unit(&UnitRecord { capacity, class: 0, side: 1, years: 1, random: 0, name: padded(name) });
}

// The demand at a floor shows in the ROUND line of a close with nobody in.
fn check_demands(check: &mut Check) {
    let shown = [
        (STRAIGHT, 6_000, 13_334),
        (STRAIGHT, 1, 29_998),
        (STRAIGHT, 4_000, 20_000),
        (STRAIGHT, 3_600, 21_000),
    ];
    let more = [
        (STRAIGHT, 1_000, 27_500),
        (STRAIGHT, 0, 200_000_000),
        (STEPPED, 4_001, 10_000),
        (STEPPED, 1, 20_000),
    ];
    for (curve, floor, demand) in shown.into_iter().chain(more) {
        let mut file = over_k(curve, 7_000, 7_000 - floor);
        file.close();
        check.has(
            "demand at a floor",
            &file,
            &format!("FLOOR {floor} IN 0 DEMAND {demand}\nCLEARED {floor} GROUND 3\n"),
        );
    }
    let mut above = over_k(STRAIGHT, 7_001, 1);
    above.close();
    check.equal("D(7,001) is 0", &above, "FAULT AUCTION 6 WORD 0\n");
    let mut met = over_k(STRAIGHT, 7_000, 3_000);
    maker(&mut met, 10_000, "A");
    met.exit(0, 7_000);
    met.close();
    check.has("D(7,000) is 10,000", &met, "CLEARED 7000 GROUND 2\nAWARD A 10000 1\n");
}

fn check_worked(check: &mut Check) {
    let words = worked_words();
    check.that("61 words", words.len() == 61, "");
    check.equal("the worked auction", &file_of(words.clone()), WORKED_LISTING);
    for (capacity, ground, awarded) in [(1_400u32, 4, true), (1_500, 5, false), (1_600, 5, false)] {
        let mut changed = words.clone();
        changed[25] = 3 << 28 | capacity;
        let file = file_of(changed);
        check.has("COMBE-3's capacity", &file, &format!("CLEARED 3600 GROUND {ground}\n"));
        check.has("COMBE-3's award", &file, &format!("AWARD COMBE-3 {capacity} 10\n"));
        let found = listing(&file.bytes()).contains("DALE-4");
        check.that("DALE-4's award", found == awarded, "");
    }
}

fn check_grounds(check: &mut Check) {
    let mut first = over_k(STRAIGHT, 7_000, 3_000);
    maker(&mut first, 20_000, "A");
    first.close();
    check.has("ground 1", &first, "CLEARED 4000 GROUND 1\n");
    let mut second = over_k(STRAIGHT, 7_000, 3_000);
    maker(&mut second, 20_000, "A");
    maker(&mut second, 1_000, "B");
    second.close();
    second.exit(1, 3_600);
    second.close();
    check.has("ground 2", &second, "CLEARED 3600 GROUND 2\nAWARD A 20000 1\nAWARD B 1000 1\n");
    let mut none = over_k(STRAIGHT, 7_000, 3_000);
    none.close();
    check.equal("ground 3", &none, "ROUND 1 CAP 7000 FLOOR 4000 IN 0 DEMAND 20000\nCLEARED 4000 GROUND 3\n");
    let mut alone = over_k(STRAIGHT, 7_000, 3_000);
    maker(&mut alone, 20_000, "A");
    maker(&mut alone, 1_400, "B");
    alone.close();
    alone.exit(1, 3_600);
    alone.close();
    check.has("the last exit's own capacity alone", &alone, "CLEARED 1000 GROUND 5\nAWARD A 20000 1\n");
}

// Round 2 of the worked auction, with the exits at its edges before its last close.
fn check_edges_of_round(check: &mut Check) {
    let edges = [
        (3u32, 4_000u32, ""),
        (3, 1_000, "REFUSED 17 WORD 49\n"),
        (1, 2_500, ""),
        (1, 2_501, "REFUSED 18 WORD 49\n"),
    ];
    for (unit, price, line) in edges {
        let mut words = worked_words();
        words.truncate(49);
        words.extend([4 << 28 | unit, price]);
        let lines = format!("ROUND 1 CAP 7000 FLOOR 4000 IN 21400 DEMAND 20000\n{line}UNSETTLED\n");
        check.equal("an edge of round 2", &file_of(words), &lines);
    }
}

fn with_corners(curve: u64, corners: &[(u64, u64)]) -> BidFile {
    let mut file = BidFile::default();
    let cap = corners.first().map_or(1, |corner| corner.1).clamp(1, 10_000);
    file.terms(cap, 1, 0, curve, 0);
    for &(quantity, price) in corners {
        file.corner(quantity, price);
    }
    file
}

fn check_edges_of_curve(check: &mut Check) {
    let many = |count: u64| (1..=count).map(|i| (i, 5)).collect::<Vec<_>>();
    let cases: [(u64, Vec<(u64, u64)>, u32); 18] = [
        (STEPPED, many(1), 0),
        (STEPPED, many(16), 0),
        (STEPPED, many(0), 1),
        (STEPPED, many(17), 1),
        (STEPPED, vec![(1, 10_000)], 0),
        (STEPPED, vec![(200_000_000, 5)], 0),
        (STEPPED, vec![(1, 10_001)], 2),
        (STEPPED, vec![(0, 5)], 2),
        (STEPPED, vec![(200_000_001, 5)], 2),
        (STRAIGHT, vec![(7, 5), (8, 5)], 0),
        (STRAIGHT, vec![(7, 5), (7, 4)], 3),
        (STRAIGHT, vec![(7, 5), (8, 6)], 3),
        (STRAIGHT, vec![(7, 5), (10_000_007, 5)], 0),
        (STEPPED, vec![(7, 5), (10_000_008, 5)], 0),
        (STRAIGHT, vec![(7, 5), (10_000_008, 5)], 4),
        (STRAIGHT, vec![(7, 5), (6, 5), (8, 10_001)], 2),
        (STRAIGHT, vec![(7, 5), (20_000_000, 5), (8, 5)], 3),
        (STRAIGHT, vec![(150_000_000, 5)], 0),
    ];
    for (curve, corners, question) in cases {
        let lines = match question {
            0 => "UNSETTLED\n".to_string(),
            _ => format!("FAULT CURVE {question} WORD 0\n"),
        };
        check.equal(&format!("corners {corners:?}"), &with_corners(curve, &corners), &lines);
    }
}

// Edges of the file questions that the pages name.
fn check_edges_of_file(check: &mut Check) {
    let settled = |more: &[u32]| {
        let mut words = worked_words();
        words.extend_from_slice(more);
        file_of(words)
    };
    let after = |question: u32| format!("{WORKED_LISTING}FAULT FILE {question} WORD 61\n");
    check.equal("a close with value 1 after settlement", &settled(&[7 << 28 | 1]), &after(26));
    check.equal("a zero word after settlement", &settled(&[0]), &after(24));
    check.equal("out of turn and cut short", &settled(&[4 << 28]), &after(25));
    check.equal("an empty file", &file_of(Vec::new()), "FAULT FILE 26 WORD 0\n");
    let mut corners = over_k(STRAIGHT, 7_000, 3_000);
    for _ in 0..14 {
        corners.corner(40_000, 0);
    }
    check.equal("17 corners", &corners, "FAULT CURVE 1 WORD 0\n");
    corners.words.push(8 << 28);
    check.equal("17 corners and a bad head word", &corners, "FAULT FILE 24 WORD 39\n");
    let long = |bytes: usize| listing(&[0x20, 0, 0, 0].repeat(bytes / 4));
    check.that("65,532 bytes", long(65_532) == "FAULT FILE 25 WORD 0\n", &long(65_532));
    check.that("65,536 bytes", long(65_536) == "FAULT FILE 23 WORD 0\n", &long(65_536));
    check.that("five bytes", listing(&[0; 5]) == "FAULT FILE 23 WORD 0\n", &listing(&[0; 5]));
}

fn main() -> ExitCode {
    let mut check = Check { wrong: 0, done: 0 };
    check_demands(&mut check);
    check_worked(&mut check);
    check_grounds(&mut check);
    check_edges_of_round(&mut check);
    check_edges_of_curve(&mut check);
    check_edges_of_file(&mut check);
    println!("{} figures checked, {} wrong", check.done, check.wrong);
    if check.wrong == 0 {
        ExitCode::SUCCESS
    } else {
        ExitCode::FAILURE
    }
}
