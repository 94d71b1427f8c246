//! Makes scripts of calls for trials of a flash translation layer.
//!
//! `generate SEED [CALLS]` writes to standard output a script with at least CALLS calls (20000
//! unless given). The same arguments always give the same script. A script is a row of cards; each
//! card follows one shape (a kind of use, see `SHAPES`). The generator does not simulate the store:
//! it remembers only the measures, the plan and the latest groups that it chose itself, and whether
//! a format line came since the last line that leaves the store unformatted.
//!
//! Built by `rustc -O generate.rs`. The script language is described in README.md.

use std::fmt::Write as _;
use std::io::{self, Write as _};

// ---------------------------------------------------------------------------------------------
// Random numbers
// ---------------------------------------------------------------------------------------------

/// The splitmix64 generator.
struct Random(u64);

impl Random {
    fn next(&mut self) -> u64 {
        self.0 = self.0.wrapping_add(0x9e37_79b9_7f4a_7c15);
        let mut z = self.0;
        z = (z ^ z >> 30).wrapping_mul(0xbf58_476d_1ce4_e5b9);
        z = (z ^ z >> 27).wrapping_mul(0x94d0_49bb_1331_11eb);
        z ^ z >> 31
    }

    /// A number below `bound`.
    fn below(&mut self, bound: usize) -> usize {
        (self.next() % bound as u64) as usize
    }

    /// A number from `low` to `high`, both included.
    fn between(&mut self, low: usize, high: usize) -> usize {
        low + self.below(high - low + 1)
    }

    /// True once in `times`.
    fn once_in(&mut self, times: usize) -> bool {
        self.below(times) == 0
    }

    fn pick<T: Copy>(&mut self, choices: &[T]) -> T {
        choices[self.below(choices.len())]
    }

    fn shuffle<T>(&mut self, items: &mut [T]) {
        for last in (1..items.len()).rev() {
            items.swap(last, self.below(last + 1));
        }
    }
}

// ---------------------------------------------------------------------------------------------
// What was chosen
// ---------------------------------------------------------------------------------------------

/// The page measures of a card.
#[derive(Clone, Copy)]
struct Pages {
    pages: usize,
    size: usize,
    rated: usize,
}

/// A plan: data blocks, page-region blocks, threshold and idle limit.
#[derive(Clone, Copy)]
struct Plan {
    data: usize,
    region: usize,
    threshold: usize,
    idle: usize,
}

impl Plan {
    fn blocks(&self) -> usize {
        self.data + self.region
    }
}

/// How often each kind of line comes, and whether groups stay at or below the threshold.
#[derive(Clone, Copy)]
struct Mix {
    flush: usize,
    read: usize,
    discard: usize,
    idle: usize,
    question: usize,
    fault: usize,
    reformat: usize,
    touch: usize,
    unreadable: usize,
    small_groups: bool,
}

const ORDINARY: Mix = Mix {
    flush: 200,
    read: 100,
    discard: 28,
    idle: 24,
    question: 40,
    fault: 24,
    reformat: 1,
    touch: 1,
    unreadable: 2,
    small_groups: false,
};

/// Stays with one format.
const SETTLED: Mix = Mix { reformat: 0, touch: 0, ..ORDINARY };

/// Stays with one format and brings about many rounds.
const WEARING: Mix = Mix { idle: 60, small_groups: true, ..SETTLED };

const KINDS: [&str; 5] = ["plain", "image", "pair", "good", "stack"];

const LARGEST: usize = 4_294_967_295;

/// The script so far and what it has chosen.
struct Script {
    random: Random,
    out: Vec<u8>,
    calls: usize,
    cards: usize,
    /// How many cards with unusable measures there were.
    unusable: usize,
    /// Blocks of the top layer of this card, and its page measures.
    blocks: usize,
    card: Pages,
    /// The plan in force, if no format was refused.
    plan: Plan,
    /// Whether the store is formatted, if no format was refused.
    formatted: bool,
    /// The latest groups: logical block and page set.
    latest: Vec<(usize, u64)>,
}

// ---------------------------------------------------------------------------------------------
// Lines
// ---------------------------------------------------------------------------------------------

impl Script {
    fn new(seed: u64) -> Script {
        Script {
            random: Random(seed),
            out: Vec::new(),
            calls: 0,
            cards: 0,
            unusable: 0,
            blocks: 0,
            card: Pages { pages: 2, size: 4, rated: 1 },
            plan: Plan { data: 1, region: 2, threshold: 1, idle: 0 },
            formatted: false,
            latest: Vec::new(),
        }
    }

    fn line(&mut self, text: &str) {
        self.out.extend_from_slice(text.as_bytes());
        self.out.push(b'\n');
    }

    fn call(&mut self, text: &str) {
        self.line(text);
        self.calls += 1;
    }

    fn format(&mut self, plan: Plan) {
        let Plan { data, region, threshold, idle } = plan;
        self.call(&format!("format {data} {region} {threshold} {idle}"));
    }

    /// A format that is likely accepted.
    fn take_plan(&mut self, plan: Plan) {
        self.format(plan);
        self.plan = plan;
        self.formatted = true;
        self.latest.clear();
    }

    /// Leaves the store unformatted.
    fn wear(&mut self, block: usize, times: usize) {
        self.line(&format!("wear {block} {times}"));
        self.formatted = false;
    }

    /// Leaves the store unformatted.
    fn soil(&mut self, block: usize, page: usize) {
        self.line(&format!("soil {block} {page}"));
        self.formatted = false;
    }

    fn flush(&mut self, block: usize, set: u64, data: &str) {
        let (block, set) = (self.decimal(block), self.hex_set(set));
        self.call(&format!("flush {block} {set} {data}"));
    }

    fn read(&mut self, block: usize, page: usize) {
        let (block, page) = (self.decimal(block), self.decimal(page));
        self.call(&format!("read {block} {page}"));
    }

    fn discard(&mut self, block: usize, set: u64) {
        let (block, set) = (self.decimal(block), self.hex_set(set));
        self.call(&format!("discard {block} {set}"));
    }

    fn idle(&mut self) {
        self.call("idle");
    }

    /// A number, now and then with leading zeros.
    fn decimal(&mut self, number: usize) -> String {
        match self.random.below(100) {
            0 => format!("0{number}"),
            1 => format!("{number:025}"),
            _ => number.to_string(),
        }
    }

    /// A page set, now and then with leading zeros.
    fn hex_set(&mut self, set: u64) -> String {
        if self.random.once_in(50) { format!("{set:016x}") } else { format!("{set:x}") }
    }

    /// Random bytes in base sixteen, "-" for none.
    fn data(&mut self, length: usize) -> String {
        if length == 0 {
            return "-".to_string();
        }
        let mut text = String::new();
        for _ in 0..length {
            write!(text, "{:02x}", self.random.below(256)).unwrap();
        }
        text
    }
}

// ---------------------------------------------------------------------------------------------
// Cards and plans
// ---------------------------------------------------------------------------------------------

impl Script {
    /// A fresh card, now and then after one whose work area was left too short.
    fn card_line(&mut self, kind: &str, chip_blocks: usize, card: Pages, bad: &[usize]) {
        if self.random.once_in(8) {
            self.line("area 0");
        }
        let Pages { pages, size, rated } = card;
        let mut text = format!("card {kind} {chip_blocks} {pages} {size} {rated}");
        for block in bad {
            write!(text, " {block}").unwrap();
        }
        self.line(&text);
        self.cards += 1;
        self.card = card;
        self.formatted = false;
        self.latest.clear();
    }

    /// A fresh card of the next kind for a plan to come, with some blocks to spare.
    fn new_card(&mut self, plan: Plan, spare: usize, card: Pages) {
        let needed = 256.min(plan.blocks() + spare);
        let kind = KINDS[self.cards % KINDS.len()];
        let chips = if kind == "pair" || kind == "stack" { 2 } else { 1 };
        let spoilt = if kind == "good" || kind == "stack" {
            let most = (256 - needed).min(6);
            self.random.between(0, most)
        } else {
            0
        };
        let chip_blocks = (needed + spoilt + chips - 1) / chips;
        let total = chip_blocks * chips;
        let mut bad: Vec<usize> = (0..total).collect();
        self.random.shuffle(&mut bad);
        bad.truncate(spoilt);
        self.blocks = total - spoilt;
        self.add_needless_bad_numbers(&mut bad, total);
        self.card_line(kind, chip_blocks, card, &bad);
        self.plan = plan;
    }

    /// Now and then repeats a bad block number or adds one that does not exist.
    fn add_needless_bad_numbers(&mut self, bad: &mut Vec<usize>, total: usize) {
        if bad.is_empty() || !self.random.once_in(3) {
            return;
        }
        let repeated = self.random.pick(bad);
        let beyond = self.random.pick(&[total, total + 1, 256, 65_535]);
        bad.push(if self.random.once_in(2) { repeated } else { beyond });
    }

    /// A plan within the limits, drawn from the given ranges.
    fn plan(&mut self, data: (usize, usize), region: (usize, usize), pages: usize) -> Plan {
        let data = self.random.between(data.0, data.1);
        let region = self.random.between(region.0, region.1);
        let threshold = self.any_threshold(pages);
        let idle = self.any_idle_limit(region, pages);
        Plan { data, region, threshold, idle }
    }

    fn any_threshold(&mut self, pages: usize) -> usize {
        match self.random.below(8) {
            0 => 0,
            1 | 2 => pages,
            _ => self.random.between(1, pages),
        }
    }

    /// An idle limit, often at one of its ends.
    fn any_idle_limit(&mut self, region: usize, pages: usize) -> usize {
        let most = (region - 1) * pages - 1;
        match self.random.below(5) {
            0 => 0,
            1 => most,
            2 => self.random.between(0, most),
            _ => self.random.between(0, most.min(pages)),
        }
    }

    /// A size for small pages.
    fn small_size(&mut self) -> usize {
        self.random.pick(&[4, 4, 4, 5, 6, 8, 16])
    }

    /// A card for the plan with a few blocks to spare, soiled here and there, then formatted.
    fn start(&mut self, plan: Plan, card: Pages) {
        let spare = if self.random.once_in(16) { 256 } else { self.random.between(0, 3) };
        self.new_card(plan, spare, card);
        if self.random.once_in(3) {
            self.early_calls();
        }
        if self.random.once_in(2) {
            self.soil_anywhere();
        }
        self.take_plan(plan);
    }

    /// Calls and questions to a store that is not formatted.
    fn early_calls(&mut self) {
        for _ in 0..self.random.between(1, 4) {
            match self.random.below(6) {
                0 => self.good_flush(false),
                1 => self.good_read(),
                2 => self.good_discard(),
                3 => self.idle(),
                4 => self.faulty_flush(),
                _ => self.question(),
            }
        }
    }

    /// Programs some pages, also ones that the card does not have.
    fn soil_anywhere(&mut self) {
        for _ in 0..self.random.between(1, 6) {
            let block = self.random.between(0, self.blocks);
            let page = self.random.between(0, self.card.pages);
            self.soil(block, page);
        }
    }

    /// Wears or soils a block of the card, in use or not; now and then one that does not exist.
    fn touch_any_block(&mut self) {
        let block = match self.random.below(8) {
            0 => self.random.pick(&[self.blocks, 256, 65_535]),
            _ => self.random.below(self.blocks),
        };
        if self.random.once_in(2) {
            let times = self.random.pick(&[0, 1, 1, 2, 20]);
            self.wear(block, times);
        } else {
            let page = self.random.between(0, self.card.pages);
            let page = self.random.pick(&[0, page, page, LARGEST]);
            self.soil(block, page);
        }
    }
}

// ---------------------------------------------------------------------------------------------
// Good calls
// ---------------------------------------------------------------------------------------------

impl Script {
    /// A logical block; half of the time one of a few hot ones.
    fn any_block(&mut self) -> usize {
        let among = if self.random.once_in(2) { self.plan.data.min(3) } else { self.plan.data };
        self.random.below(among)
    }

    fn group_size(&mut self, small: bool) -> usize {
        let (pages, threshold) = (self.card.pages, self.plan.threshold);
        let most_small = threshold.max(1);
        match self.random.below(if small { 8 } else { 11 }) {
            0..=4 => self.random.between(1, most_small.min(4)),
            5 | 6 => self.random.between(1, most_small),
            7 => most_small,
            8 => (threshold + 1).min(pages),
            9 => self.random.between(most_small, pages),
            _ => pages,
        }
    }

    /// A set of so many pages: a run, or scattered ones.
    fn set_of(&mut self, size: usize) -> u64 {
        let pages = self.card.pages;
        let mut numbers: Vec<usize> = (0..pages).collect();
        if self.random.once_in(2) {
            numbers.rotate_left(self.random.below(pages - size + 1));
        } else {
            self.random.shuffle(&mut numbers);
        }
        numbers[..size].iter().fold(0, |set, page| set | 1 << page)
    }

    /// A logical block and a page set: a new one, or one of the latest again.
    fn any_group(&mut self, small: bool) -> (usize, u64) {
        if !self.latest.is_empty() && self.random.once_in(5) {
            return self.random.pick(&self.latest);
        }
        let size = self.group_size(small);
        (self.any_block(), self.set_of(size))
    }

    fn remember(&mut self, block: usize, set: u64) {
        if self.latest.len() >= 24 {
            self.latest.remove(0);
        }
        self.latest.push((block, set));
    }

    fn good_flush(&mut self, small: bool) {
        let (block, set) = self.any_group(small);
        self.flush_pages(block, set);
    }

    fn flush_pages(&mut self, block: usize, set: u64) {
        let data = self.data(set.count_ones() as usize * self.card.size);
        self.flush(block, set, &data);
        self.remember(block, set);
    }

    /// A page that was likely flushed, or any page of the plan.
    fn any_page(&mut self) -> (usize, usize) {
        if !self.latest.is_empty() && !self.random.once_in(4) {
            let (block, set) = self.random.pick(&self.latest);
            let held: Vec<usize> = (0..64).filter(|page| set >> page & 1 == 1).collect();
            return (block, self.random.pick(&held));
        }
        (self.any_block(), self.random.below(self.card.pages))
    }

    fn good_read(&mut self) {
        let (block, page) = self.any_page();
        self.read(block, page);
    }

    fn good_discard(&mut self) {
        let (block, set) = if self.random.once_in(3) {
            let size = self.random.between(1, self.card.pages);
            (self.any_block(), self.set_of(size))
        } else {
            let (block, page) = self.any_page();
            (block, 1 << page)
        };
        self.discard(block, set);
    }

    fn question(&mut self) {
        let long_lists = self.blocks <= 24 || self.random.once_in(8);
        match self.random.below(6) {
            0 => self.line("slots"),
            1 => self.line("ceiling"),
            2 if long_lists => self.line("counts"),
            3 if long_lists => self.line("floors"),
            4 if self.random.once_in(4) => {
                let (block, page) = self.outside_page();
                self.line(&format!("where {block} {page}"));
            }
            _ => {
                let (block, page) = self.any_page();
                self.line(&format!("where {block} {page}"));
            }
        }
    }
}

// ---------------------------------------------------------------------------------------------
// Faults
// ---------------------------------------------------------------------------------------------

impl Script {
    /// A number that is no logical block of the plan.
    fn outside_block(&mut self) -> usize {
        let data = self.plan.data;
        match self.random.below(3) {
            0 => data,
            1 => (data + self.random.below(self.plan.region)).min(255),
            _ => self.random.between(data, 255),
        }
    }

    fn outside_page_number(&mut self) -> usize {
        let pages = self.card.pages;
        let further = self.random.between(pages, 255);
        self.random.pick(&[pages, pages, pages + 1, further, LARGEST])
    }

    /// A block and a page of which at least one is outside the plan.
    fn outside_page(&mut self) -> (usize, usize) {
        let (mut block, mut page) = self.any_page();
        let which = self.random.below(3);
        if which != 0 {
            block = self.outside_block();
        }
        if which != 1 {
            page = self.outside_page_number();
        }
        (block, page)
    }

    /// A page set with pages that no block has; the same set if a block has 64 pages.
    fn with_outside_page(&mut self, set: u64) -> u64 {
        let pages = self.card.pages;
        if pages == 64 {
            return set;
        }
        let outside = self.random.between(pages, 63);
        let outside = self.random.pick(&[pages, outside, 63]);
        set | 1 << outside
    }

    /// Block and set with one fault or more: no such block, no such page, no page at all.
    fn faulty_set(&mut self, block: usize, set: u64) -> (usize, u64) {
        let faults = self.random.pick(&[1, 1, 2, 2, 4, 4, 3, 5, 6, 7]);
        let block = if faults & 1 != 0 { self.outside_block() } else { block };
        let set = if faults & 2 != 0 { 0 } else { set };
        let set = if faults & 4 != 0 { self.with_outside_page(set) } else { set };
        (block, set)
    }

    fn wrong_length(&mut self, right: usize) -> usize {
        let size = self.card.size;
        let less = right.saturating_sub(size);
        self.random.pick(&[0, 1, right + 1, right + size, right.saturating_sub(1), less])
    }

    fn faulty_flush(&mut self) {
        let (block, set) = self.any_group(false);
        let bad_length = self.random.once_in(3);
        let (block, set) = if bad_length && !self.random.once_in(4) {
            (block, set)
        } else {
            self.faulty_set(block, set)
        };
        let right = set.count_ones() as usize * self.card.size;
        let length = if bad_length { self.wrong_length(right) } else { right };
        let data = self.data(length);
        self.flush(block, set, &data);
    }

    fn faulty_read(&mut self) {
        let (block, page) = self.outside_page();
        self.read(block, page);
    }

    fn faulty_discard(&mut self) {
        let (block, set) = self.any_group(false);
        let (block, set) = self.faulty_set(block, set);
        self.discard(block, set);
    }

    /// A plan that no card with these pages accepts.
    fn faulty_plan(&mut self) -> Plan {
        let pages = self.card.pages;
        let mut plan = self.plan;
        if self.random.once_in(4) {
            plan.data = 128;
            plan.region = 16;
        }
        let limit = (plan.region - 1) * pages;
        match self.random.below(4) {
            0 => plan.data = self.random.pick(&[0, 129, 130, 65_535]),
            1 => plan.region = self.random.pick(&[0, 1, 17, 65_535]),
            2 => plan.threshold = self.random.pick(&[pages + 1, pages + 2, LARGEST]),
            _ => plan.idle = self.random.pick(&[limit, limit + 1, LARGEST]),
        }
        plan
    }

    /// A plan within the limits that needs more blocks than the card has, if there is one.
    fn oversized_plan(&mut self) -> Option<Plan> {
        let region = self.random.between(2, 16);
        let just_above = (self.blocks + 1).saturating_sub(region).max(1);
        if just_above > 128 {
            return None;
        }
        let data = if self.random.once_in(2) { just_above } else { 128 };
        Some(Plan { data, region, threshold: 1, idle: 0 })
    }

    fn faulty_format(&mut self) {
        let oversized = self.oversized_plan();
        let plan = match oversized {
            Some(plan) if self.random.once_in(2) => plan,
            _ => self.faulty_plan(),
        };
        self.format(plan);
    }

    /// Calls with a work area that is too short, then one that suffices.
    fn short_area(&mut self) {
        let needed = self.card.pages * self.card.size;
        let short = self.random.below(needed);
        let short = self.random.pick(&[needed - 1, needed - 1, short, 0]);
        self.line(&format!("area {short}"));
        for _ in 0..self.random.between(1, 4) {
            match self.random.below(5) {
                0 | 1 => self.good_flush(false),
                2 => self.idle(),
                3 => self.faulty_flush(),
                _ => self.good_read(),
            }
        }
        let more = needed + self.random.below(100);
        let length = self.random.pick(&[needed, needed, more, 1_048_576]);
        self.line(&format!("area {length}"));
    }

    fn fault(&mut self) {
        match self.random.below(12) {
            0..=3 => self.faulty_flush(),
            4 | 5 => self.faulty_read(),
            6 | 7 => self.faulty_discard(),
            8 | 9 => self.faulty_format(),
            _ => self.short_area(),
        }
    }
}

/// Lines that cannot be read.
const UNREADABLE: [&str; 66] = [
    "flush 0 1", "flush 0 1 00000000 0", "flush 256 1 00000000", "flush 0 1 0000000",
    "flush 0 1 AABBCCDD", "flush 0 1 0000000g", "flush 0 A 00000000", "flush 0 g 00000000",
    "flush 0 - 00000000", "flush 0 0x1 00000000", "flush 0 10000000000000001 00000000",
    "flush  0 1 00000000", "flush 0 1 --", "flush 0 1 -00", "flush -1 1 00000000", "flush 0 1 ",
    "flush 0  00000000", "Flush 0 1 00000000", "read", "read 0", "read 0 0 0", "read 256 0",
    "read 0 4294967296", "read 0 99999999999999999999999999", "read 0 a", "read +1 0", "read 0 0 ",
    " read 0 0", "read\t0 0", "read 0,0", "discard 0", "discard 0 ", "discard 300 1", "discard 0 F",
    "idle ", " idle", "idle 1", "IDLE", "idle\r", "slots 0", "slots => 0 0 0", "where 0",
    "where 256 0", "where 0 4294967296", "counts 1", "floors ", "ceiling 2", "area", "area 1048577",
    "area -", "wear 0", "wear 0 1000001", "wear 65536 1", "wear 0 1 ", "wear 0 -1", "soil 0",
    "soil 65536 0", "soil 0 4294967296", "soil 0 0 0",
    "format 1 2 1", "format 65536 2 1 0", "format 1 2 4294967296 0", "format 1 2 1 0 0", " ",
    "# a remark", "r\u{e9}ad 0 0",
];

/// Card lines that cannot be read: the card before them stays.
const UNREADABLE_CARDS: [&str; 14] = [
    "card", "card plain", "card plain 5 4 4", "card plain 5 4 4 1000 0", "card image 5 4 4 1000 1",
    "card pair 5 4 4 1000 ", "card round 5 4 4 1000", "card plain 65536 4 4 1000",
    "card plain 5 4294967296 4 1000", "card good 5 4 4 1000 1 65536", "card good 5 4 4 1000 1  2",
    "card good 5 4 4 1000 ", "card stack 5 4 4 1000 x", "card  plain 5 4 4 1000",
];

impl Script {
    fn unreadable(&mut self) {
        let line = match self.random.below(10) {
            0 | 1 => self.random.pick(&UNREADABLE_CARDS),
            2 => "",
            _ => self.random.pick(&UNREADABLE),
        };
        self.line(line);
    }
}

// ---------------------------------------------------------------------------------------------
// Stretches of calls
// ---------------------------------------------------------------------------------------------

impl Script {
    /// Formats anew with a plan that the card can hold.
    fn reformat(&mut self) {
        if self.blocks < 3 {
            return;
        }
        let plan = if self.random.once_in(3) {
            self.plan
        } else {
            let region = self.random.between(2, 16.min(self.blocks - 1));
            let most = (self.blocks - region).min(128);
            let least = if self.random.once_in(3) { most } else { 1 };
            self.plan((least, most), (region, region), self.card.pages)
        };
        self.take_plan(plan);
    }

    /// One line, or a few that belong together. A store left unformatted is soon formatted.
    fn step(&mut self, mix: &Mix) {
        if !self.formatted && !self.random.once_in(3) {
            return self.reformat();
        }
        let weights = [
            mix.flush, mix.read, mix.discard, mix.idle, mix.question, mix.fault, mix.reformat,
            mix.touch, mix.unreadable,
        ];
        let mut left = self.random.below(weights.iter().sum());
        let mut which = 0;
        while left >= weights[which] {
            left -= weights[which];
            which += 1;
        }
        match which {
            0 => self.good_flush(mix.small_groups),
            1 => self.good_read(),
            2 => self.good_discard(),
            3 => self.idle(),
            4 => self.question(),
            5 => self.fault(),
            6 => self.reformat(),
            7 => self.touch_any_block(),
            _ => self.unreadable(),
        }
    }

    fn run(&mut self, calls: usize, mix: &Mix) {
        let goal = self.calls + calls;
        while self.calls < goal {
            self.step(mix);
        }
    }

    /// Looks at the whole state of a card, at a part of it if the card is large.
    fn look_around(&mut self) {
        self.line("slots");
        self.line("ceiling");
        self.line("counts");
        self.line("floors");
        let (data, pages) = (self.plan.data, self.card.pages);
        let mut places: Vec<(usize, usize)> =
            (0..data * pages).map(|place| (place / pages, place % pages)).collect();
        self.random.shuffle(&mut places);
        places.truncate(if self.formatted { 32 } else { 4 });
        for (block, page) in places {
            self.line(&format!("where {block} {page}"));
            self.read(block, page);
        }
    }

    /// A card for the plan, a stretch of calls, and a look at what is left.
    fn use_card(&mut self, plan: Plan, card: Pages, calls: usize, mix: &Mix) {
        self.start(plan, card);
        self.run(calls, mix);
        self.look_around();
    }

    fn any_length(&mut self) -> usize {
        self.random.between(100, 300)
    }
}

// ---------------------------------------------------------------------------------------------
// Shapes
// ---------------------------------------------------------------------------------------------

const SHAPES: [fn(&mut Script); 18] = [
    small_card, small_card, tight_region, tight_region, one_data_block, most_blocks, long_blocks,
    block_mapped_only, page_mapped_only, restless, worn_beforehand, worn_by_rounds,
    worn_to_the_edge, worn_spare_block, formats_again, no_plan, largest_flush, large_pages,
];

/// An ordinary small card.
fn small_card(script: &mut Script) {
    let pages = script.random.between(2, 8);
    let card = Pages { pages, size: script.small_size(), rated: 1000 };
    let plan = script.plan((1, 8), (2, 5), pages);
    let calls = script.any_length();
    let unreadable = script.random.pick(&[2, 2, 120]);
    script.use_card(plan, card, calls, &Mix { unreadable, ..ORDINARY });
}

/// Two or three page-region blocks and small groups: many compactions and merges.
fn tight_region(script: &mut Script) {
    let pages = script.random.between(2, 8);
    let card = Pages { pages, size: 4, rated: script.random.pick(&[5000, 1_000_000]) };
    let mut plan = script.plan((1, 12), (2, 3), pages);
    plan.threshold = script.random.between(1, pages);
    let calls = script.random.between(250, 500);
    script.use_card(plan, card, calls, &Mix { small_groups: true, discard: 8, ..ORDINARY });
}

/// A single data block: every merge and large group hits the same one.
fn one_data_block(script: &mut Script) {
    let pages = script.random.pick(&[2, 3, 8, 16]);
    let card = Pages { pages, size: script.small_size(), rated: 1000 };
    let plan = script.plan((1, 1), (2, 4), pages);
    let calls = script.random.between(80, 200);
    script.use_card(plan, card, calls, &ORDINARY);
}

/// 128 data blocks or 16 page-region blocks, or both.
fn most_blocks(script: &mut Script) {
    let pages = script.random.between(2, 5);
    let card = Pages { pages, size: 4, rated: 1000 };
    let (least_data, least_region) = script.random.pick(&[(128, 16), (128, 2), (5, 16), (100, 10)]);
    let plan = script.plan((least_data, 128.min(least_data + 20)), (least_region, 16), pages);
    let calls = script.random.between(200, 400);
    let small_groups = script.random.once_in(2);
    script.use_card(plan, card, calls, &Mix { small_groups, ..ORDINARY });
}

/// Blocks of many pages, up to 64.
fn long_blocks(script: &mut Script) {
    let pages = script.random.pick(&[16, 31, 32, 33, 63, 64, 64]);
    let card = Pages { pages, size: 4, rated: 1000 };
    let region = script.random.pick(&[(2, 4), (2, 4), (2, 4), (16, 16)]);
    let mut plan = script.plan((2, 10), region, pages);
    plan.threshold = script.random.pick(&[plan.threshold, 8, pages, pages - 1]);
    let calls = script.any_length();
    script.use_card(plan, card, calls, &ORDINARY);
}

/// Threshold 0: every group goes to the block-mapped region.
fn block_mapped_only(script: &mut Script) {
    let pages = script.random.between(2, 9);
    let card = Pages { pages, size: script.small_size(), rated: 1000 };
    let plan = Plan { threshold: 0, ..script.plan((1, 6), (2, 3), pages) };
    let calls = script.random.between(60, 120);
    script.use_card(plan, card, calls, &ORDINARY);
}

/// Threshold P: every group goes to the page-mapped region, full groups too.
fn page_mapped_only(script: &mut Script) {
    let pages = script.random.between(2, 12);
    let card = Pages { pages, size: script.small_size(), rated: 5000 };
    let plan = Plan { threshold: pages, ..script.plan((1, 8), (2, 6), pages) };
    let calls = script.any_length();
    script.use_card(plan, card, calls, &ORDINARY);
}

/// Many idle rounds, the idle limit at one of its ends.
fn restless(script: &mut Script) {
    let pages = script.random.between(2, 8);
    let card = Pages { pages, size: 4, rated: 5000 };
    let mut plan = script.plan((1, 8), (2, 5), pages);
    plan.threshold = script.random.between(1, pages);
    let most = (plan.region - 1) * pages - 1;
    plan.idle = script.random.pick(&[0, most, most, most / 2]);
    let calls = script.any_length();
    script.use_card(plan, card, calls, &Mix { idle: 200, ..ORDINARY });
}

/// Blocks of the plan are worn before the format, so that a few erases later flushes and idle
/// rounds are refused, while reads and discards go on.
fn worn_beforehand(script: &mut Script) {
    for _ in 0..2 {
        let small = script.random.between(129, 200);
        let rated = script.random.pick(&[small, small, small, small, 300, 2000]);
        let plan = card_to_wear_out(script, rated, 0);
        let mut blocks = vec![0, plan.data, plan.data + 1];
        script.random.shuffle(&mut blocks);
        blocks.truncate(script.random.between(1, 3));
        for block in blocks {
            let left = script.random.between(0, 5);
            script.wear(block, (rated - 128).saturating_sub(left));
        }
        script.take_plan(plan);
        wear_out(script, 50);
    }
}

/// The rounds alone wear the blocks, which stand only a few erases, or some dozens.
fn worn_by_rounds(script: &mut Script) {
    let erases = script.random.pick(&[0, 1, 2, 3, 4, 6, 8, 12, 20, 72]);
    let plan = card_to_wear_out(script, 128 + erases, 0);
    script.take_plan(plan);
    wear_out(script, 40 + 6 * erases);
}

/// Before the format one block is worn to the last count that is accepted, one less or one more.
fn worn_to_the_edge(script: &mut Script) {
    for _ in 0..3 {
        let small = script.random.between(129, 200);
        let fewest = script.random.pick(&[1, 127, 128, 128]);
        let rated = script.random.pick(&[small, small, small, small, fewest, 1000, 1_000_000]);
        let plan = card_to_wear_out(script, rated, 0);
        let block = script.random.below(script.blocks);
        let count = (rated + script.random.pick(&[0, 1, 1, 2])).saturating_sub(129);
        script.wear(block, count);
        if script.random.once_in(2) {
            // So the format itself erases the block, if the plan has it.
            script.soil(block, 0);
        }
        if count + 128 <= rated {
            script.take_plan(plan);
            wear_out(script, 20);
        } else {
            script.format(plan);
            refused_card(script);
        }
    }
}

/// A block outside the plan is worn step by step, with a format after each: the last is refused.
fn worn_spare_block(script: &mut Script) {
    let rated = script.random.pick(&[400, 1000, 2000, 1_000_000]);
    let plan = card_to_wear_out(script, rated, 1);
    script.take_plan(plan);
    script.run(30, &WEARING);
    let block = script.blocks - 1;
    for times in [rated - 128 - 20, 18, 1, 1] {
        script.wear(block, times);
        if script.random.once_in(3) {
            script.early_calls();
        }
        script.take_plan(plan);
        script.run(8, &WEARING);
        script.line("counts");
    }
    script.wear(block, 1);
    script.format(plan);
    refused_card(script);
}

/// A card and a plan of few blocks of few pages, so that rounds come often.
fn card_to_wear_out(script: &mut Script, rated: usize, least_spare: usize) -> Plan {
    let pages = script.random.between(2, 5);
    let threshold = script.random.between(1, pages);
    let plan = Plan { threshold, ..script.plan((1, 5), (2, 3), pages) };
    let spare = script.random.between(least_spare, 3);
    script.new_card(plan, spare, Pages { pages, size: 4, rated });
    plan
}

/// Calls until the card is likely worn out, then calls that are refused for wear or for other
/// reasons as well; at last the store may lose its format for good.
fn wear_out(script: &mut Script, calls: usize) {
    let small_groups = !script.random.once_in(4);
    script.run(calls, &Mix { small_groups, ..WEARING });
    for _ in 0..script.random.between(1, 3) {
        script.good_flush(false);
        script.idle();
        script.short_area();
        script.faulty_flush();
        script.faulty_format();
    }
    script.good_discard();
    script.format(script.plan);
    script.look_around();
    if script.random.once_in(3) {
        script.touch_any_block();
        script.format(script.plan);
        refused_card(script);
    }
}

/// Calls to a card that is likely too worn for a format.
fn refused_card(script: &mut Script) {
    script.early_calls();
    if script.random.once_in(3) {
        let block = script.random.between(0, script.blocks);
        script.wear(block, script.card.rated.min(2000) + 1);
        script.format(script.plan);
    }
    script.faulty_format();
    script.look_around();
}

/// Format after format with changing plans, soiled blocks, refused plans in between.
fn formats_again(script: &mut Script) {
    let pages = script.random.between(2, 6);
    let card = Pages { pages, size: script.small_size(), rated: 1000 };
    let plan = script.plan((1, 6), (2, 4), pages);
    let spare = script.random.between(0, 12);
    script.new_card(plan, spare, card);
    script.early_calls();
    script.soil_anywhere();
    script.soil_anywhere();
    script.line("floors");
    script.faulty_format();
    script.good_read();
    script.take_plan(plan);
    for _ in 0..script.random.between(3, 7) {
        let calls = script.random.between(5, 30);
        script.run(calls, &ORDINARY);
        script.faulty_format();
        script.look_around();
        script.touch_any_block();
        if script.random.once_in(3) {
            script.early_calls();
        }
        script.reformat();
    }
    script.look_around();
}

/// Cards with measures out of limits or at most two blocks: no plan is ever accepted.
fn no_plan(script: &mut Script) {
    for _ in 0..4 {
        unusable_card(script);
    }
}

fn unusable_card(script: &mut Script) {
    let kind = script.random.pick(&KINDS);
    let two_chips = kind == "pair" || kind == "stack";
    let (chip_blocks, card) = unusable_measures(script, two_chips);
    let bad: Vec<usize> = match kind {
        "good" | "stack" => (0..script.random.below(4)).collect(),
        _ => Vec::new(),
    };
    script.card_line(kind, chip_blocks, card, &bad);
    // From here on as for the flash without blocks.
    script.blocks = 0;
    script.card = Pages { pages: 2, size: 4, rated: 1 };
    script.plan = Plan { data: 1, region: 2, threshold: 1, idle: 0 };
    script.line("counts");
    for _ in 0..2 {
        script.early_calls();
        script.soil_anywhere();
        script.wear(0, 2);
        script.line("floors");
        script.faulty_format();
    }
    script.format(Plan { data: 1, region: 2, threshold: 2, idle: 1 });
    script.good_flush(false);
    script.good_read();
    script.line("slots");
}

/// Each in turn: too few blocks, too many, and each other measure just out of its limits.
fn unusable_measures(script: &mut Script, two_chips: bool) -> (usize, Pages) {
    script.unusable += 1;
    let good = Pages { pages: 4, size: 4, rated: 1000 };
    match script.unusable % 12 {
        0 => (0, good),
        1 => (1, good),
        2 => (if two_chips { 129 } else { 2 }, good),
        3 => (257, good),
        4 => (65_535, good),
        5 => (5, Pages { pages: 1, ..good }),
        6 => (5, Pages { pages: 65, ..good }),
        7 => (5, Pages { size: 3, ..good }),
        8 => (5, Pages { size: 4097, ..good }),
        9 => (5, Pages { rated: 0, ..good }),
        10 => (5, Pages { rated: 1_000_001, ..good }),
        _ => (5, Pages { pages: LARGEST, size: LARGEST, rated: LARGEST }),
    }
}

/// One live page for each of P logical blocks fills the page-mapped region; then a full group of
/// another block needs P merges and P compactions. The second time each merge erases as well:
/// 2 P erases in one flush, 128 for blocks of 64 pages.
fn largest_flush(script: &mut Script) {
    let pages = script.random.pick(&[2, 5, 16, 64, 64, 64, 64, 64]);
    let card = Pages { pages, size: 4, rated: script.random.pick(&[1000, 1_000_000]) };
    let data = script.random.between(pages + 1, 128);
    let idle = script.any_idle_limit(2, pages);
    script.start(Plan { data, region: 2, threshold: pages, idle }, card);
    let full = u64::MAX >> (64 - pages);
    let last = data - 1;
    for _ in 0..script.random.between(2, 3) {
        for block in 0..pages {
            let page = script.random.below(pages);
            script.flush_pages(block, 1 << page);
        }
        script.line("slots");
        script.flush_pages(last, full);
        script.line("slots");
        script.line("ceiling");
    }
    script.run(40, &SETTLED);
    script.look_around();
}

/// Pages of up to 4096 bytes, a few calls only; rarely the largest group there is.
fn large_pages(script: &mut Script) {
    let size = script.random.pick(&[64, 200, 1000, 4095, 4096, 4096]);
    let pages = script.random.between(2, 4);
    let card = Pages { pages, size, rated: 1000 };
    let plan = script.plan((1, 2), (2, 2), pages);
    let spare = script.random.between(0, 1);
    script.new_card(plan, spare, card);
    script.soil_anywhere();
    script.take_plan(plan);
    script.run(8, &ORDINARY);
    if script.random.once_in(60) {
        let plan = Plan { threshold: 0, ..plan };
        script.start(plan, Pages { pages: 64, size: 4096, rated: 1000 });
        script.flush_pages(0, u64::MAX);
        script.read(0, 63);
    }
}

// ---------------------------------------------------------------------------------------------

fn script_of(seed: u64, calls: usize) -> Vec<u8> {
    let mut script = Script::new(seed);
    script.cards = script.random.below(KINDS.len());
    script.unusable = script.random.below(12);
    let mut shapes = SHAPES;
    script.early_calls();
    while script.calls < calls {
        script.random.shuffle(&mut shapes);
        for shape in &shapes {
            if script.calls < calls {
                shape(&mut script);
            }
        }
    }
    script.out
}

fn main() {
    let arguments: Vec<String> = std::env::args().skip(1).collect();
    let seed = arguments.first().and_then(|word| word.parse().ok());
    let calls = arguments.get(1).map_or(Some(20_000), |word| word.parse().ok());
    let (Some(seed), Some(calls)) = (seed, calls) else {
        eprintln!("usage: generate SEED [CALLS]");
        std::process::exit(2);
    };
    io::stdout().write_all(&script_of(seed, calls)).expect("standard output");
}
