//! A second implementation of a flash translation layer, for trials.
//!
//! It reads a script of calls from standard input and writes every line with its results to
//! standard output. It was built from the rules alone and is naive on purpose: the maps are
//! searched from end to end, nothing is cached, and every count is counted anew.
//!
//! Built by `rustc -O reference.rs`. The script language is described in README.md.

use std::collections::{BTreeMap, BTreeSet};
use std::io::{self, BufRead, BufReader, BufWriter, Write};

// ---------------------------------------------------------------------------------------------
// Flash
// ---------------------------------------------------------------------------------------------

/// The four measures of a flash, which never change.
#[derive(Clone, Copy, PartialEq)]
struct Measures {
    blocks: usize,
    pages: usize,
    size: usize,
    rated: usize,
}

/// The measures of a flash whose making failed.
const NO_BLOCKS: Measures = Measures { blocks: 0, pages: 2, size: 4, rated: 1 };

impl Measures {
    fn within_limits(&self) -> bool {
        self.blocks <= 256
            && (2..=64).contains(&self.pages)
            && (4..=4096).contains(&self.size)
            && (1..=1_000_000).contains(&self.rated)
    }

    /// These measures, or those of the flash without blocks.
    fn or_no_blocks(self) -> Measures {
        if self.within_limits() { self } else { NO_BLOCKS }
    }
}

/// What every flash does. Program and erase tell whether they were accepted; a refusal changes
/// nothing. Floor and count of a block that does not exist are 0.
trait Flash {
    fn measures(&self) -> Measures;
    fn floor(&self, block: usize) -> usize;
    fn count(&self, block: usize) -> usize;
    fn read(&self, block: usize, page: usize) -> Option<Vec<u8>>;
    fn program(&mut self, block: usize, page: usize, bytes: &[u8]) -> bool;
    fn erase(&mut self, block: usize) -> bool;
}

/// A chip that keeps each block's pages, floor and erase count in a record.
struct PlainChip {
    measures: Measures,
    blocks: Vec<PlainBlock>,
}

#[derive(Clone)]
struct PlainBlock {
    pages: Vec<Vec<u8>>,
    floor: usize,
    count: usize,
}

impl PlainChip {
    fn new(wanted: Measures) -> PlainChip {
        let measures = wanted.or_no_blocks();
        let blank = PlainBlock {
            pages: vec![vec![255; measures.size]; measures.pages],
            floor: 0,
            count: 0,
        };
        PlainChip { measures, blocks: vec![blank; measures.blocks] }
    }
}

impl Flash for PlainChip {
    fn measures(&self) -> Measures {
        self.measures
    }

    fn floor(&self, block: usize) -> usize {
        self.blocks.get(block).map_or(0, |b| b.floor)
    }

    fn count(&self, block: usize) -> usize {
        self.blocks.get(block).map_or(0, |b| b.count)
    }

    fn read(&self, block: usize, page: usize) -> Option<Vec<u8>> {
        self.blocks.get(block)?.pages.get(page).cloned()
    }

    fn program(&mut self, block: usize, page: usize, bytes: &[u8]) -> bool {
        let Measures { pages, size, .. } = self.measures;
        let Some(target) = self.blocks.get_mut(block) else { return false };
        if page >= pages || bytes.len() != size || page < target.floor {
            return false;
        }
        target.pages[page] = bytes.to_vec();
        target.floor = page + 1;
        true
    }

    fn erase(&mut self, block: usize) -> bool {
        let rated = self.measures.rated;
        let Some(target) = self.blocks.get_mut(block) else { return false };
        if target.count >= rated {
            return false;
        }
        // Pages at or above the floor hold only 255 already.
        for page in &mut target.pages[..target.floor] {
            page.fill(255);
        }
        target.floor = 0;
        target.count += 1;
        true
    }
}

/// A chip that keeps everything in one memory image: for each block a packed header of four bytes
/// (floor 7 bits, erase count 20 bits, five zero bits, most significant first), then its pages.
struct ImageChip {
    measures: Measures,
    memory: Vec<u8>,
}

const HEADER: usize = 4;

impl ImageChip {
    /// A fresh image: floors and counts 0, pages blank.
    fn new(wanted: Measures) -> ImageChip {
        let measures = wanted.or_no_blocks();
        let mut one_block = vec![0; HEADER];
        one_block.resize(HEADER + measures.pages * measures.size, 255);
        ImageChip { measures, memory: one_block.repeat(measures.blocks) }
    }

    /// The place of a block's header.
    fn start(&self, block: usize) -> usize {
        block * (HEADER + self.measures.pages * self.measures.size)
    }

    /// The place of a page's first byte.
    fn page_start(&self, block: usize, page: usize) -> usize {
        self.start(block) + HEADER + page * self.measures.size
    }

    /// Floor and erase count out of a block's header; 0 and 0 for a block that does not exist.
    fn header(&self, block: usize) -> (usize, usize) {
        if block >= self.measures.blocks {
            return (0, 0);
        }
        let at = self.start(block);
        let bytes = self.memory[at..at + HEADER].iter();
        let packed = bytes.fold(0, |packed, byte| packed << 8 | usize::from(*byte));
        (packed >> 25, packed >> 5 & 0xf_ffff)
    }

    fn set_header(&mut self, block: usize, floor: usize, count: usize) {
        let packed = (floor as u32) << 25 | (count as u32) << 5;
        let at = self.start(block);
        self.memory[at..at + HEADER].copy_from_slice(&packed.to_be_bytes());
    }
}

impl Flash for ImageChip {
    fn measures(&self) -> Measures {
        self.measures
    }

    fn floor(&self, block: usize) -> usize {
        self.header(block).0
    }

    fn count(&self, block: usize) -> usize {
        self.header(block).1
    }

    fn read(&self, block: usize, page: usize) -> Option<Vec<u8>> {
        if block >= self.measures.blocks || page >= self.measures.pages {
            return None;
        }
        let at = self.page_start(block, page);
        Some(self.memory[at..at + self.measures.size].to_vec())
    }

    fn program(&mut self, block: usize, page: usize, bytes: &[u8]) -> bool {
        let Measures { blocks, pages, size, .. } = self.measures;
        let (floor, count) = self.header(block);
        if block >= blocks || page >= pages || bytes.len() != size || page < floor {
            return false;
        }
        let at = self.page_start(block, page);
        self.memory[at..at + size].copy_from_slice(bytes);
        self.set_header(block, page + 1, count);
        true
    }

    fn erase(&mut self, block: usize) -> bool {
        let (floor, count) = self.header(block);
        if block >= self.measures.blocks || count >= self.measures.rated {
            return false;
        }
        // Pages at or above the floor hold only 255 already.
        let (from, to) = (self.page_start(block, 0), self.page_start(block, floor));
        self.memory[from..to].fill(255);
        self.set_header(block, 0, count + 1);
        true
    }
}

/// The flash without blocks, which stands in place of a flash whose making failed.
fn no_blocks() -> Box<dyn Flash> {
    Box::new(PlainChip::new(NO_BLOCKS))
}

/// Two equal flashes side by side: even blocks are on the left one, odd blocks on the right one.
struct Pair {
    left: Box<dyn Flash>,
    right: Box<dyn Flash>,
}

/// The pair, or the flash without blocks if the two do not fit.
fn pair_of(left: Box<dyn Flash>, right: Box<dyn Flash>) -> Box<dyn Flash> {
    let agree = left.measures() == right.measures();
    if agree && (1..=128).contains(&left.measures().blocks) {
        Box::new(Pair { left, right })
    } else {
        no_blocks()
    }
}

impl Pair {
    fn side(&self, block: usize) -> &dyn Flash {
        if block % 2 == 0 { &*self.left } else { &*self.right }
    }

    fn side_mut(&mut self, block: usize) -> &mut dyn Flash {
        if block % 2 == 0 { &mut *self.left } else { &mut *self.right }
    }
}

impl Flash for Pair {
    fn measures(&self) -> Measures {
        let one = self.left.measures();
        Measures { blocks: 2 * one.blocks, ..one }
    }

    fn floor(&self, block: usize) -> usize {
        self.side(block).floor(block / 2)
    }

    fn count(&self, block: usize) -> usize {
        self.side(block).count(block / 2)
    }

    fn read(&self, block: usize, page: usize) -> Option<Vec<u8>> {
        self.side(block).read(block / 2, page)
    }

    fn program(&mut self, block: usize, page: usize, bytes: &[u8]) -> bool {
        self.side_mut(block).program(block / 2, page, bytes)
    }

    fn erase(&mut self, block: usize) -> bool {
        self.side_mut(block).erase(block / 2)
    }
}

/// A flash without the bad blocks of the flash below. `good` lists the remaining ones in order.
struct GoodBlocks {
    below: Box<dyn Flash>,
    good: Vec<usize>,
}

impl GoodBlocks {
    fn new(below: Box<dyn Flash>, bad: &[usize]) -> GoodBlocks {
        let good = (0..below.measures().blocks).filter(|b| !bad.contains(b)).collect();
        GoodBlocks { below, good }
    }
}

impl Flash for GoodBlocks {
    fn measures(&self) -> Measures {
        Measures { blocks: self.good.len(), ..self.below.measures() }
    }

    fn floor(&self, block: usize) -> usize {
        self.good.get(block).map_or(0, |b| self.below.floor(*b))
    }

    fn count(&self, block: usize) -> usize {
        self.good.get(block).map_or(0, |b| self.below.count(*b))
    }

    fn read(&self, block: usize, page: usize) -> Option<Vec<u8>> {
        self.below.read(*self.good.get(block)?, page)
    }

    fn program(&mut self, block: usize, page: usize, bytes: &[u8]) -> bool {
        let Some(below) = self.good.get(block) else { return false };
        self.below.program(*below, page, bytes)
    }

    fn erase(&mut self, block: usize) -> bool {
        let Some(below) = self.good.get(block) else { return false };
        self.below.erase(*below)
    }
}

// ---------------------------------------------------------------------------------------------
// Store
// ---------------------------------------------------------------------------------------------

/// The numbers by which the store refuses a call.
type Refusal = u32;
const UNFORMATTED: Refusal = 6;
const NO_SUCH_BLOCK: Refusal = 7;
const NO_SUCH_PAGE: Refusal = 8;
const EMPTY_SET: Refusal = 9;
const WRONG_DATA_LENGTH: Refusal = 10;
const SHORT_WORK_AREA: Refusal = 11;
const WORN: Refusal = 12;
const NOT_HELD: Refusal = 14;
const PLAN_OUT_OF_LIMITS: Refusal = 15;
const TOO_FEW_BLOCKS: Refusal = 16;

/// A call is refused when some block may not stand this many more erases.
const WEAR_MARGIN: usize = 128;

/// How a formatted store divides its flash: the first blocks are data blocks (the block-mapped
/// region), those after them form the page-mapped region.
#[derive(Clone, Copy, Default)]
struct Plan {
    data_blocks: usize,
    region_blocks: usize,
    threshold: usize,
    idle_limit: usize,
}

/// A page of a logical block.
#[derive(Clone, Copy, PartialEq)]
struct LogicalPage {
    block: usize,
    page: usize,
}

/// A programmed slot of the page-mapped region: the logical page it holds, `None` if it is dead.
type Slot = Option<LogicalPage>;

/// Where a group went or a page is held; the number is what an answer tells.
#[derive(Clone, Copy)]
enum Region {
    PageMapped = 1,
    BlockMapped = 2,
}

/// The flash page that holds a logical page.
struct Place {
    region: Region,
    block: usize,
    page: usize,
}

/// What an accepted flush or idle round tells.
#[derive(Default)]
struct Answer {
    way: u32,
    erases: usize,
    compactions: usize,
    merges: usize,
}

/// What was done since the last accepted format.
#[derive(Default)]
struct Totals {
    erases: usize,
    large_groups: usize,
    small_pages: usize,
}

/// The pages of a group, or of a block's new contents, by page number.
type Pages = BTreeMap<usize, Vec<u8>>;

/// The store: two maps over a flash.
/// * `valid` has for each data block the set of its valid pages.
/// * `region` has for each page-region block its programmed slots in order. The reserve has none.
struct Store {
    flash: Box<dyn Flash>,
    formatted: bool,
    plan: Plan,
    valid: Vec<BTreeSet<usize>>,
    region: Vec<Vec<Slot>>,
    reserve: usize,
    totals: Totals,
}

/// The calls.
impl Store {
    fn new(flash: Box<dyn Flash>) -> Store {
        Store {
            flash,
            formatted: false,
            plan: Plan::default(),
            valid: Vec::new(),
            region: Vec::new(),
            reserve: 0,
            totals: Totals::default(),
        }
    }

    /// Takes up a plan with empty maps; tells how many blocks had to be erased.
    fn format(&mut self, plan: Plan) -> Result<usize, Refusal> {
        self.check_plan(&plan)?;
        let blocks_used = plan.data_blocks + plan.region_blocks;
        if blocks_used > self.flash.measures().blocks {
            return Err(TOO_FEW_BLOCKS);
        }
        self.check_wear()?;
        let mut answer = Answer::default();
        for block in 0..blocks_used {
            if self.flash.floor(block) > 0 {
                self.erase(block, &mut answer);
            }
        }
        self.formatted = true;
        self.plan = plan;
        self.valid = vec![BTreeSet::new(); plan.data_blocks];
        self.region = vec![Vec::new(); plan.region_blocks];
        self.reserve = plan.region_blocks - 1;
        self.totals = Totals::default();
        Ok(answer.erases)
    }

    /// Stores a group: some pages of one logical block, their data in ascending page order.
    fn flush(
        &mut self,
        block: usize,
        set: u64,
        data: &[u8],
        area: usize,
    ) -> Result<Answer, Refusal> {
        self.check_pages(block, set)?;
        let group = self.group(set, data)?;
        self.check_area(area)?;
        self.check_wear()?;
        let mut answer = Answer::default();
        if group.len() > self.plan.threshold {
            self.rewrite(block, &group, &mut answer);
            answer.way = Region::BlockMapped as u32;
            self.totals.large_groups += 1;
        } else {
            self.make_room(group.len(), &mut answer);
            self.append_group(block, &group);
            answer.way = Region::PageMapped as u32;
            self.totals.small_pages += group.len();
        }
        self.totals.erases += answer.erases;
        Ok(answer)
    }

    /// The bytes of a held page and the region that holds it.
    fn read(&self, block: usize, page: usize) -> Result<(Region, Vec<u8>), Refusal> {
        self.check_block(block)?;
        if page >= self.pages() {
            return Err(NO_SUCH_PAGE);
        }
        let place = self.locate(LogicalPage { block, page }).ok_or(NOT_HELD)?;
        Ok((place.region, self.read_flash(place.block, place.page)))
    }

    /// Drops the named pages that are held.
    fn discard(&mut self, block: usize, set: u64) -> Result<(), Refusal> {
        self.check_pages(block, set)?;
        for page in pages_of(set) {
            self.valid[block].remove(&page);
            self.kill_slots(|held| held == LogicalPage { block, page });
        }
        Ok(())
    }

    /// Makes one round if few slots are free.
    fn idle(&mut self, area: usize) -> Result<Answer, Refusal> {
        self.check_formatted()?;
        self.check_area(area)?;
        self.check_wear()?;
        let mut answer = Answer::default();
        if self.free() <= self.plan.idle_limit {
            self.round(&mut answer);
        }
        self.totals.erases += answer.erases;
        Ok(answer)
    }
}

/// The checks, in the order in which the calls make them.
impl Store {
    fn check_plan(&self, plan: &Plan) -> Result<(), Refusal> {
        let within = (1..=128).contains(&plan.data_blocks)
            && (2..=16).contains(&plan.region_blocks)
            && plan.threshold <= self.pages()
            && plan.idle_limit < (plan.region_blocks - 1) * self.pages();
        if within { Ok(()) } else { Err(PLAN_OUT_OF_LIMITS) }
    }

    fn check_formatted(&self) -> Result<(), Refusal> {
        if self.formatted { Ok(()) } else { Err(UNFORMATTED) }
    }

    fn check_block(&self, block: usize) -> Result<(), Refusal> {
        self.check_formatted()?;
        if block < self.plan.data_blocks { Ok(()) } else { Err(NO_SUCH_BLOCK) }
    }

    fn check_pages(&self, block: usize, set: u64) -> Result<(), Refusal> {
        self.check_block(block)?;
        if pages_of(set).iter().any(|page| *page >= self.pages()) {
            return Err(NO_SUCH_PAGE);
        }
        if set == 0 { Err(EMPTY_SET) } else { Ok(()) }
    }

    fn check_area(&self, area: usize) -> Result<(), Refusal> {
        let needed = self.pages() * self.flash.measures().size;
        if area >= needed { Ok(()) } else { Err(SHORT_WORK_AREA) }
    }

    /// Looks at all blocks of the flash, also at those that the plan does not use.
    fn check_wear(&self) -> Result<(), Refusal> {
        let Measures { blocks, rated, .. } = self.flash.measures();
        let worn = (0..blocks).any(|block| self.flash.count(block) + WEAR_MARGIN > rated);
        if worn { Err(WORN) } else { Ok(()) }
    }

    /// The pages of a group with their bytes, if the data has the right length.
    fn group(&self, set: u64, data: &[u8]) -> Result<Pages, Refusal> {
        let size = self.flash.measures().size;
        let pages = pages_of(set);
        if data.len() != pages.len() * size {
            return Err(WRONG_DATA_LENGTH);
        }
        let bytes = data.chunks(size).map(|chunk| chunk.to_vec());
        Ok(pages.into_iter().zip(bytes).collect())
    }
}

/// The questions.
impl Store {
    fn pages(&self) -> usize {
        self.flash.measures().pages
    }

    /// Counts the slots with a property, of all page-region blocks (the reserve has none).
    fn count_slots(&self, wanted: impl Fn(&Slot) -> bool) -> usize {
        self.region.iter().flatten().filter(|slot| wanted(slot)).count()
    }

    fn live(&self) -> usize {
        self.count_slots(|slot| slot.is_some())
    }

    fn dead(&self) -> usize {
        self.count_slots(|slot| slot.is_none())
    }

    /// The slots not yet programmed, those of the reserve left out.
    fn free(&self) -> usize {
        let others = self.region.iter().enumerate().filter(|(r, _)| *r != self.reserve);
        others.map(|(_, slots)| self.pages() - slots.len()).sum()
    }

    /// The flash block of a page-region block.
    fn region_block(&self, r: usize) -> usize {
        self.plan.data_blocks + r
    }

    fn locate(&self, logical: LogicalPage) -> Option<Place> {
        for (r, slots) in self.region.iter().enumerate() {
            for (slot, held) in slots.iter().enumerate() {
                if *held == Some(logical) {
                    let block = self.region_block(r);
                    return Some(Place { region: Region::PageMapped, block, page: slot });
                }
            }
        }
        let LogicalPage { block, page } = logical;
        if self.valid.get(block)?.contains(&page) {
            return Some(Place { region: Region::BlockMapped, block, page });
        }
        None
    }

    /// The most erases that the flushes since format may have cost: one a large group, one a page
    /// of a small group, and the merges that those pages can bring about.
    fn ceiling(&self) -> usize {
        if !self.formatted {
            return 0;
        }
        let plan = &self.plan;
        let capacity = (plan.region_blocks - 1) * self.pages();
        let per_merge = capacity + 1 - plan.threshold.max(plan.idle_limit + 1);
        let Totals { large_groups, small_pages, .. } = self.totals;
        large_groups + small_pages + small_pages * plan.data_blocks / per_merge
    }
}

/// The steps of a flush and of a round.
impl Store {
    /// Writes a data block anew: the fresh pages and all other held ones of the logical block.
    fn rewrite(&mut self, block: usize, fresh: &Pages, answer: &mut Answer) {
        let contents = self.gather(block, fresh);
        if self.flash.floor(block) > 0 {
            self.erase(block, answer);
        }
        for (page, bytes) in &contents {
            self.program(block, *page, bytes);
        }
        self.valid[block] = contents.keys().copied().collect();
        self.kill_slots(|held| held.block == block);
    }

    fn gather(&self, block: usize, fresh: &Pages) -> Pages {
        let mut contents = fresh.clone();
        for page in 0..self.pages() {
            if contents.contains_key(&page) {
                continue;
            }
            if let Some(place) = self.locate(LogicalPage { block, page }) {
                contents.insert(page, self.read_flash(place.block, place.page));
            }
        }
        contents
    }

    /// Appends the pages of a small group; only afterwards their older copies go.
    fn append_group(&mut self, block: usize, group: &Pages) {
        let before: Vec<usize> = self.region.iter().map(|slots| slots.len()).collect();
        for (page, bytes) in group {
            self.append(self.open_block(), LogicalPage { block, page: *page }, bytes);
        }
        for page in group.keys() {
            self.valid[block].remove(page);
            let logical = LogicalPage { block, page: *page };
            for (slots, used) in self.region.iter_mut().zip(&before) {
                for slot in &mut slots[..*used] {
                    if *slot == Some(logical) {
                        *slot = None;
                    }
                }
            }
        }
    }

    /// The lowest-numbered page-region block that is neither reserve nor full.
    fn open_block(&self) -> usize {
        let mut blocks = 0..self.region.len();
        let open = blocks.find(|r| *r != self.reserve && self.region[*r].len() < self.pages());
        open.expect("rounds have made room")
    }

    /// Puts a page into the next slot of a page-region block.
    fn append(&mut self, r: usize, logical: LogicalPage, bytes: &[u8]) {
        self.program(self.region_block(r), self.region[r].len(), bytes);
        self.region[r].push(Some(logical));
    }

    /// Makes the live slots with a property dead.
    fn kill_slots(&mut self, wanted: impl Fn(LogicalPage) -> bool) {
        for slot in self.region.iter_mut().flatten() {
            if slot.is_some_and(&wanted) {
                *slot = None;
            }
        }
    }

    /// Makes rounds until so many slots are free.
    fn make_room(&mut self, needed: usize, answer: &mut Answer) {
        while self.free() < needed {
            self.round(answer);
        }
    }

    fn round(&mut self, answer: &mut Answer) {
        if self.dead() > 0 {
            self.compact(answer);
        } else {
            self.merge(answer);
        }
    }

    /// Moves the live pages of the block with the most dead slots to the reserve and erases it;
    /// it is the reserve from then on.
    fn compact(&mut self, answer: &mut Answer) {
        let dead_in = |slots: &Vec<Slot>| slots.iter().filter(|slot| slot.is_none()).count();
        let victim = first_greatest(self.region.iter().map(dead_in));
        let slots = std::mem::take(&mut self.region[victim]);
        for (slot, held) in slots.iter().enumerate() {
            if let Some(logical) = held {
                let bytes = self.read_flash(self.region_block(victim), slot);
                self.append(self.reserve, *logical, &bytes);
            }
        }
        self.erase(self.region_block(victim), answer);
        self.reserve = victim;
        answer.compactions += 1;
    }

    /// Joins the live page-region pages of the data block that has most of them with its valid
    /// pages in the block-mapped region.
    fn merge(&mut self, answer: &mut Answer) {
        let live_of = |d| self.count_slots(|slot| slot.is_some_and(|held| held.block == d));
        let block = first_greatest((0..self.plan.data_blocks).map(live_of));
        self.rewrite(block, &Pages::new(), answer);
        answer.merges += 1;
    }
}

/// The flash as the store uses it. The rules see to it that none of these is ever refused.
impl Store {
    fn read_flash(&self, block: usize, page: usize) -> Vec<u8> {
        self.flash.read(block, page).expect("a page of the flash")
    }

    fn program(&mut self, block: usize, page: usize, bytes: &[u8]) {
        assert!(self.flash.program(block, page, bytes), "program refused: {} {}", block, page);
    }

    fn erase(&mut self, block: usize, answer: &mut Answer) {
        assert!(self.flash.erase(block), "erase refused: {}", block);
        answer.erases += 1;
    }
}

/// The page numbers of a set, ascending: page i counts 2^i.
fn pages_of(set: u64) -> Vec<usize> {
    (0..64).filter(|page| set >> page & 1 == 1).collect()
}

/// The place of the greatest number, the first of them on a tie.
fn first_greatest(numbers: impl Iterator<Item = usize>) -> usize {
    let mut best: Option<(usize, usize)> = None;
    for (place, number) in numbers.enumerate() {
        if best.is_none_or(|(_, greatest)| number > greatest) {
            best = Some((place, number));
        }
    }
    best.expect("a list that is not empty").0
}

// ---------------------------------------------------------------------------------------------
// Script lines
// ---------------------------------------------------------------------------------------------

#[derive(Clone, Copy)]
enum Kind {
    Plain,
    Image,
    Pair,
    Good,
    Stack,
}

enum Line {
    Card { kind: Kind, measures: Measures, bad: Vec<usize> },
    Wear { block: usize, times: usize },
    Soil { block: usize, page: usize },
    Area { length: usize },
    Format { plan: Plan },
    Flush { block: usize, set: u64, data: Vec<u8> },
    Read { block: usize, page: usize },
    Discard { block: usize, set: u64 },
    Idle,
    Slots,
    Where { block: usize, page: usize },
    Counts,
    Floors,
    Ceiling,
}

const MOST_BLOCK: usize = 65_535;
const MOST_LOGICAL_BLOCK: usize = 255;
const MOST_WORD: usize = 4_294_967_295;
const MOST_AREA: usize = 1_048_576;
const MOST_TIMES: usize = 1_000_000;
const MOST_SET_DIGITS: usize = 16;
const MOST_DATA_DIGITS: usize = 524_288;

/// Reads a line; nothing if it cannot be read.
fn parse(line: &[u8]) -> Option<Line> {
    if !line.is_ascii() {
        return None;
    }
    let text = std::str::from_utf8(line).ok()?;
    let words: Vec<&str> = text.split(' ').collect();
    Some(match words[..] {
        ["card", kind, b, p, s, n, ref bad @ ..] => card_line(kind, [b, p, s, n], bad)?,
        ["wear", block, times] => {
            Line::Wear { block: number(block, MOST_BLOCK)?, times: number(times, MOST_TIMES)? }
        }
        ["soil", block, page] => {
            Line::Soil { block: number(block, MOST_BLOCK)?, page: number(page, MOST_WORD)? }
        }
        ["area", length] => Line::Area { length: number(length, MOST_AREA)? },
        ["format", l, r, t, a] => Line::Format {
            plan: Plan {
                data_blocks: number(l, MOST_BLOCK)?,
                region_blocks: number(r, MOST_BLOCK)?,
                threshold: number(t, MOST_WORD)?,
                idle_limit: number(a, MOST_WORD)?,
            },
        },
        ["flush", block, set, data] => {
            Line::Flush { block: logical(block)?, set: page_set(set)?, data: bytes(data)? }
        }
        ["read", block, page] => {
            Line::Read { block: logical(block)?, page: number(page, MOST_WORD)? }
        }
        ["discard", block, set] => Line::Discard { block: logical(block)?, set: page_set(set)? },
        ["where", block, page] => {
            Line::Where { block: logical(block)?, page: number(page, MOST_WORD)? }
        }
        ["idle"] => Line::Idle,
        ["slots"] => Line::Slots,
        ["counts"] => Line::Counts,
        ["floors"] => Line::Floors,
        ["ceiling"] => Line::Ceiling,
        _ => return None,
    })
}

fn card_line(kind: &str, [b, p, s, n]: [&str; 4], bad: &[&str]) -> Option<Line> {
    let kind = match (kind, bad.is_empty()) {
        ("plain", true) => Kind::Plain,
        ("image", true) => Kind::Image,
        ("pair", true) => Kind::Pair,
        ("good", _) => Kind::Good,
        ("stack", _) => Kind::Stack,
        _ => return None,
    };
    let measures = Measures {
        blocks: number(b, MOST_BLOCK)?,
        pages: number(p, MOST_WORD)?,
        size: number(s, MOST_WORD)?,
        rated: number(n, MOST_WORD)?,
    };
    let bad = bad.iter().map(|word| number(word, MOST_BLOCK)).collect::<Option<Vec<usize>>>()?;
    Some(Line::Card { kind, measures, bad })
}

/// A decimal number of any length that is not above the given one.
fn number(word: &str, most: usize) -> Option<usize> {
    let mut value: usize = 0;
    for digit in word.bytes() {
        if !digit.is_ascii_digit() {
            return None;
        }
        value = 10 * value + usize::from(digit - b'0');
        if value > most {
            return None;
        }
    }
    if word.is_empty() { None } else { Some(value) }
}

fn logical(word: &str) -> Option<usize> {
    number(word, MOST_LOGICAL_BLOCK)
}

fn hex_digit(digit: u8) -> Option<u8> {
    match digit {
        b'0'..=b'9' => Some(digit - b'0'),
        b'a'..=b'f' => Some(digit - b'a' + 10),
        _ => None,
    }
}

fn page_set(word: &str) -> Option<u64> {
    if word.is_empty() || word.len() > MOST_SET_DIGITS {
        return None;
    }
    let mut set = 0;
    for digit in word.bytes() {
        set = set << 4 | u64::from(hex_digit(digit)?);
    }
    Some(set)
}

fn bytes(word: &str) -> Option<Vec<u8>> {
    if word == "-" {
        return Some(Vec::new());
    }
    if word.is_empty() || word.len() % 2 != 0 || word.len() > MOST_DATA_DIGITS {
        return None;
    }
    let byte = |two: &[u8]| Some(hex_digit(two[0])? << 4 | hex_digit(two[1])?);
    word.as_bytes().chunks(2).map(byte).collect()
}

fn hex(bytes: &[u8]) -> String {
    let digits = b"0123456789abcdef";
    let mut text = String::with_capacity(2 * bytes.len());
    for byte in bytes {
        text.push(char::from(digits[usize::from(byte >> 4)]));
        text.push(char::from(digits[usize::from(byte & 15)]));
    }
    text
}

// ---------------------------------------------------------------------------------------------
// Session
// ---------------------------------------------------------------------------------------------

/// One store over one card, and the length of the work area.
struct Session {
    store: Store,
    area: usize,
}

fn make_card(kind: Kind, measures: Measures, bad: &[usize]) -> Box<dyn Flash> {
    let plain = || -> Box<dyn Flash> { Box::new(PlainChip::new(measures)) };
    let image = || -> Box<dyn Flash> { Box::new(ImageChip::new(measures)) };
    match kind {
        Kind::Plain => plain(),
        Kind::Image => image(),
        Kind::Pair => pair_of(plain(), plain()),
        Kind::Good => Box::new(GoodBlocks::new(plain(), bad)),
        Kind::Stack => Box::new(GoodBlocks::new(pair_of(image(), image()), bad)),
    }
}

impl Session {
    /// An unformatted store; the work area just suffices.
    fn new(flash: Box<dyn Flash>) -> Session {
        let Measures { pages, size, .. } = flash.measures();
        Session { store: Store::new(flash), area: pages * size }
    }

    /// Carries out a line; gives its results, or nothing for a line without results.
    fn carry_out(&mut self, line: Line) -> Option<String> {
        match line {
            Line::Card { kind, measures, bad } => {
                *self = Session::new(make_card(kind, measures, &bad));
                return None;
            }
            Line::Wear { block, times } => {
                self.change_flash(|flash| wear(flash, block, times));
                return None;
            }
            Line::Soil { block, page } => {
                self.change_flash(|flash| soil(flash, block, page));
                return None;
            }
            Line::Area { length } => {
                self.area = length;
                return None;
            }
            _ => {}
        }
        Some(self.results(line))
    }

    /// Takes the flash out of the store, changes it and puts it under a new store, which is not
    /// formatted.
    fn change_flash(&mut self, change: impl FnOnce(&mut dyn Flash)) {
        let mut flash = std::mem::replace(&mut self.store.flash, no_blocks());
        change(&mut *flash);
        self.store = Store::new(flash);
    }

    /// The results of a call or question.
    fn results(&mut self, line: Line) -> String {
        let store = &mut self.store;
        match line {
            Line::Format { plan } => match store.format(plan) {
                Ok(erases) => format!("0 {erases}"),
                Err(refusal) => format!("{refusal} 0"),
            },
            Line::Flush { block, set, data } => told(store.flush(block, set, &data, self.area)),
            Line::Read { block, page } => match store.read(block, page) {
                Ok((region, bytes)) => format!("0 {} {}", region as u32, hex(&bytes)),
                Err(refusal) => format!("{refusal} 0 -"),
            },
            Line::Discard { block, set } => match store.discard(block, set) {
                Ok(()) => "0".to_string(),
                Err(refusal) => refusal.to_string(),
            },
            Line::Idle => told(store.idle(self.area)),
            Line::Slots => format!("{} {} {}", store.live(), store.dead(), store.free()),
            Line::Where { block, page } => match store.locate(LogicalPage { block, page }) {
                Some(place) => format!("{} {} {}", place.region as u32, place.block, place.page),
                None => "0 0 0".to_string(),
            },
            Line::Counts => self.each_block(|flash, block| flash.count(block)),
            Line::Floors => self.each_block(|flash, block| flash.floor(block)),
            Line::Ceiling => {
                let Totals { erases, large_groups, small_pages } = store.totals;
                format!("{erases} {large_groups} {small_pages} {}", store.ceiling())
            }
            Line::Card { .. } | Line::Wear { .. } | Line::Soil { .. } | Line::Area { .. } => {
                unreachable!("a line without results")
            }
        }
    }

    fn each_block(&self, ask: impl Fn(&dyn Flash, usize) -> usize) -> String {
        let flash = &*self.store.flash;
        let blocks = 0..flash.measures().blocks;
        let numbers: Vec<String> = blocks.map(|block| ask(flash, block).to_string()).collect();
        numbers.join(" ")
    }
}

/// Erases a block so many times, or until an erase is refused: so would be all after it.
fn wear(flash: &mut dyn Flash, block: usize, times: usize) {
    for _ in 0..times {
        if !flash.erase(block) {
            break;
        }
    }
}

/// Programs a page with zeros, unless that is refused.
fn soil(flash: &mut dyn Flash, block: usize, page: usize) {
    let zeros = vec![0; flash.measures().size];
    flash.program(block, page, &zeros);
}

/// The results of a flush or an idle round.
fn told(result: Result<Answer, Refusal>) -> String {
    match result {
        Ok(a) => format!("0 {} {} {} {}", a.way, a.erases, a.compactions, a.merges),
        Err(refusal) => format!("{refusal} 0 0 0 0"),
    }
}

/// Answers one line of the script.
fn answer_line(session: &mut Session, line: &[u8], output: &mut impl Write) -> io::Result<()> {
    if line.is_empty() {
        return output.write_all(b"\n");
    }
    let Some(parsed) = parse(line) else {
        output.write_all(b"? ")?;
        output.write_all(line)?;
        return output.write_all(b"\n");
    };
    output.write_all(line)?;
    if let Some(results) = session.carry_out(parsed) {
        output.write_all(b" =>")?;
        if !results.is_empty() {
            output.write_all(b" ")?;
            output.write_all(results.as_bytes())?;
        }
    }
    output.write_all(b"\n")
}

fn main() -> io::Result<()> {
    let mut input = BufReader::new(io::stdin().lock());
    let mut output = BufWriter::new(io::stdout().lock());
    let mut session = Session::new(no_blocks());
    let mut line = Vec::new();
    while input.read_until(b'\n', &mut line)? > 0 {
        if line.last() == Some(&b'\n') {
            line.pop();
        }
        answer_line(&mut session, &line, &mut output)?;
        line.clear();
    }
    output.flush()
}
