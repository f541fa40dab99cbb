//! A store of small values in write-once cells, over a flash image lent by the caller.
//!
//! A record is written several times between two erases by a coset code. Each of its cells has a label, which is an
//! element of a finite commutative group, and the value of the record is the sum of the labels of its set cells. To
//! change the value, the fewest unset cells are set whose labels sum to the difference; of several such sets, the one
//! whose cells, lowest first, come first in dictionary order. Nothing here needs a heap.

#![forbid(unsafe_code)]

use std::ops::Range;

const MAX_PAGES: u8 = 64;
const MAX_WIDTH: u16 = 1_024;
const MAX_RECORDS_TO_PAGE: usize = 64;
const MAX_CELLS_TO_RECORD: usize = 63;
const MAX_ORDER: usize = 64;

/// Erases that a page endures.
const WEAR_LIMIT: u32 = 10_000;

/// What the number of a refusal is added to, so that it stands apart from every answer of a served call.
const REFUSED: u32 = 10_000;

/// The value of a record, or 10,000 plus the number of a refusal.
pub fn get(kind: u32, parameter: u32, n: u32, record: u32, image: &[u8]) -> u32 {
    answer(try_get(kind, parameter, n, record, image))
}

/// Writes a value into the unset cells of a record. Answers the number of cells marked, or 10,000 plus the number of
/// a refusal.
pub fn put(kind: u32, parameter: u32, n: u32, record: u32, value: u32, image: &mut [u8]) -> u32 {
    answer(try_put(kind, parameter, n, record, value, image))
}

/// Erases the page of a record and writes its records anew, the named one with a new value. Answers the number of
/// cells marked, or 10,000 plus the number of a refusal.
pub fn renew(kind: u32, parameter: u32, n: u32, record: u32, value: u32, image: &mut [u8]) -> u32 {
    answer(try_renew(kind, parameter, n, record, value, image))
}

fn answer(outcome: Result<u32, Fault>) -> u32 {
    outcome.unwrap_or_else(|fault| REFUSED + fault as u32)
}

fn try_get(kind: u32, parameter: u32, n: u32, record: u32, image: &[u8]) -> Result<u32, Fault> {
    let store = Store::open(kind, parameter, n, image)?;
    let place = store.place(record)?;
    Ok(store.value(image, place) as u32)
}

fn try_put(kind: u32, parameter: u32, n: u32, record: u32, value: u32, image: &mut [u8]) -> Result<u32, Fault> {
    let store = Store::open(kind, parameter, n, image)?;
    let place = store.place(record)?;
    let target = store.code.element(value)?;
    let plan = store.plan(image, place, target).ok_or(Fault::Full)?;
    store.mark(image, place, plan);
    Ok(plan.count_ones())
}

fn try_renew(kind: u32, parameter: u32, n: u32, record: u32, value: u32, image: &mut [u8]) -> Result<u32, Fault> {
    let store = Store::open(kind, parameter, n, image)?;
    let place = store.place(record)?;
    let target = store.code.element(value)?;
    if store.plan(image, place, target).is_some() {
        return Err(Fault::PutServes);
    }
    // One table serves every record of the page, since after the erase all of them are empty.
    let empty = Reach::over(store.code, store.code.all_cells());
    if empty.plan(target).is_none() {
        return Err(Fault::NeverReached);
    }
    if store.layout.wear(image, place.page) >= WEAR_LIMIT {
        return Err(Fault::WornOut);
    }
    Ok(store.rewrite_page(image, place, target, &empty))
}

/// Why a call is refused. The discriminant is the number of the refusal.
#[derive(Clone, Copy, Debug, PartialEq, Eq)]
pub enum Fault {
    /// The image ends within a count or before a section is complete.
    Truncated = 10,
    /// The number of pages is 0 or above 64.
    PageCount = 11,
    /// The number of cells to a page is 0 or above 1,024.
    Width = 12,
    /// Bytes follow the last page.
    TrailingBytes = 13,
    /// A bit beyond the cells of a page has the sense of a set cell.
    StrayBit = 14,
    /// A wear count is above the limit.
    WearCount = 15,
    /// The page cannot be erased any more.
    WornOut = 22,
    /// The kind is unknown, or its parameter out of range.
    UnusableGroup = 30,
    /// The number of cells to a record is 0 or above 63.
    RecordSize = 31,
    /// A page is too narrow for a single record.
    PageTooNarrow = 32,
    /// There is no record of that number.
    NoRecord = 40,
    /// The value is no element of the group.
    NoElement = 41,
    /// No set of unset cells sums to the step.
    Full = 42,
    /// A renewal is asked for where a put would do.
    PutServes = 43,
    /// Not even the empty record can take the value.
    NeverReached = 44,
}

/// Shape of the cell array in a flash image: one byte of page count, four bytes of wear for each page, two bytes of
/// width, then the cells of each page, from the lowest bit of its first byte on. A set cell is a 0 bit.
#[derive(Clone, Copy, Debug, PartialEq, Eq)]
pub struct Layout {
    pub pages: usize,
    /// Cells to a page.
    pub width: usize,
}

/// Checks a flash image in reading order and answers its layout.
pub fn check(image: &[u8]) -> Result<Layout, Fault> {
    let mut rest = image;
    let [pages] = take(&mut rest)?;
    if !(1..=MAX_PAGES).contains(&pages) {
        return Err(Fault::PageCount);
    }
    for _ in 0..pages {
        if u32::from_be_bytes(take(&mut rest)?) > WEAR_LIMIT {
            return Err(Fault::WearCount);
        }
    }
    let width = u16::from_be_bytes(take(&mut rest)?);
    if !(1..=MAX_WIDTH).contains(&width) {
        return Err(Fault::Width);
    }
    let layout = Layout { pages: pages.into(), width: width.into() };
    let length = layout.pages * layout.page_length();
    let (cells, trailing) = rest.split_at_checked(length).ok_or(Fault::Truncated)?;
    if layout.has_stray_bit(cells) {
        return Err(Fault::StrayBit);
    }
    if !trailing.is_empty() {
        return Err(Fault::TrailingBytes);
    }
    Ok(layout)
}

/// Takes the next `N` bytes off the front.
fn take<const N: usize>(rest: &mut &[u8]) -> Result<[u8; N], Fault> {
    let (front, back) = rest.split_first_chunk().ok_or(Fault::Truncated)?;
    *rest = back;
    Ok(*front)
}

impl Layout {
    /// Bytes to a page.
    fn page_length(self) -> usize {
        self.width.div_ceil(8)
    }

    /// Where the wear count of a page stands in the image.
    fn wear_range(self, page: usize) -> Range<usize> {
        let start = 1 + 4 * page;
        start..start + 4
    }

    /// Where the cells of a page stand in the image.
    fn page_range(self, page: usize) -> Range<usize> {
        let start = 3 + 4 * self.pages + page * self.page_length();
        start..start + self.page_length()
    }

    /// Whether some unused bit of the last byte of some page is 0.
    fn has_stray_bit(self, cells: &[u8]) -> bool {
        let unused = match self.width % 8 {
            0 => return false,
            used => u8::MAX << used,
        };
        cells.chunks_exact(self.page_length()).any(|page| page[page.len() - 1] & unused != unused)
    }

    fn wear(self, image: &[u8], page: usize) -> u32 {
        image[self.wear_range(page)].iter().fold(0, |wear, &byte| wear << 8 | u32::from(byte))
    }

    /// Unsets every cell of a page, which wears it by one.
    fn erase(self, image: &mut [u8], page: usize) {
        let wear = self.wear(image, page) + 1;
        image[self.wear_range(page)].copy_from_slice(&wear.to_be_bytes());
        image[self.page_range(page)].fill(u8::MAX);
    }
}

/// An element of a group, below its order.
type Element = usize;

/// A usable commutative group of order 2 to 64.
#[derive(Clone, Copy)]
enum Group {
    /// The integers modulo a number.
    Integers { modulus: usize },
    /// The binary vectors of some number of bits, summed by exclusive or.
    Vectors { bits: u32 },
}

impl Group {
    fn named(kind: u32, parameter: u32) -> Result<Self, Fault> {
        match (kind, parameter) {
            (0, 2..=64) => Ok(Group::Integers { modulus: parameter as usize }),
            (1, 1..=6) => Ok(Group::Vectors { bits: parameter }),
            _ => Err(Fault::UnusableGroup),
        }
    }

    fn order(self) -> usize {
        match self {
            Group::Integers { modulus } => modulus,
            Group::Vectors { bits } => 1 << bits,
        }
    }

    fn sum(self, a: Element, b: Element) -> Element {
        match self {
            // Both are below the modulus, so one subtraction is enough.
            Group::Integers { modulus } if a + b >= modulus => a + b - modulus,
            Group::Integers { .. } => a + b,
            Group::Vectors { .. } => a ^ b,
        }
    }

    fn opposite(self, a: Element) -> Element {
        match self {
            Group::Integers { modulus } if a > 0 => modulus - a,
            Group::Integers { .. } | Group::Vectors { .. } => a,
        }
    }

    /// The element that, added to `from`, gives `to`.
    fn step(self, from: Element, to: Element) -> Element {
        self.sum(to, self.opposite(from))
    }
}

/// A set of cells of one record: cell i is bit i.
type CellSet = u64;

fn has(cells: CellSet, cell: usize) -> bool {
    cells >> cell & 1 == 1
}

/// How the cells of a record stand for a value.
#[derive(Clone, Copy)]
struct Code {
    group: Group,
    /// Cells to a record.
    n: usize,
}

impl Code {
    fn new(group: Group, n: u32) -> Result<Self, Fault> {
        match usize::try_from(n) {
            Ok(n @ 1..=MAX_CELLS_TO_RECORD) => Ok(Code { group, n }),
            _ => Err(Fault::RecordSize),
        }
    }

    fn element(self, value: u32) -> Result<Element, Fault> {
        let element = usize::try_from(value).ok();
        element.filter(|&element| element < self.group.order()).ok_or(Fault::NoElement)
    }

    fn all_cells(self) -> CellSet {
        (1 << self.n) - 1
    }

    /// The label of each cell in turn: the nonzero elements in order, again and again.
    fn labels(self) -> impl Iterator<Item = Element> {
        (1..self.group.order()).cycle().take(self.n)
    }

    fn label(self, cell: usize) -> Element {
        1 + cell % (self.group.order() - 1)
    }

    /// The sum of the labels of a set of cells.
    fn value(self, cells: CellSet) -> Element {
        let set = self.labels().enumerate().filter(|&(cell, _)| has(cells, cell));
        set.fold(0, |sum, (_, label)| self.group.sum(sum, label))
    }
}

/// An entry of the table of reachability for an element that no set of cells sums to.
const UNREACHABLE: u8 = u8::MAX;

/// For each cell of a record and each element, the fewest unset cells, from that cell on, whose labels sum to the
/// element.
struct Reach {
    code: Code,
    unset: CellSet,
    rows: [[u8; MAX_ORDER]; MAX_CELLS_TO_RECORD + 1],
}

impl Reach {
    /// Fills the table from the last cell to the first. The row after the last cell knows the empty set alone.
    fn over(code: Code, unset: CellSet) -> Self {
        let mut reach = Reach { code, unset, rows: [[UNREACHABLE; MAX_ORDER]; MAX_CELLS_TO_RECORD + 1] };
        reach.rows[code.n][0] = 0;
        for cell in (0..code.n).rev() {
            let later = reach.rows[cell + 1];
            reach.rows[cell] = if has(unset, cell) { with_label(code.group, &later, code.label(cell)) } else { later };
        }
        reach
    }

    /// The plan for a step, if some set of unset cells sums to it: a smallest set, and of these the first in dictionary
    /// order when the cells of each are named from the lowest up.
    ///
    /// The walk names them in that order. It takes each unset cell that begins some smallest set for what remains, as a
    /// set without that cell names a higher one in its place, and so comes later.
    fn plan(&self, step: Element) -> Option<CellSet> {
        if self.rows[0][step] == UNREACHABLE {
            return None;
        }
        let mut plan = 0;
        let mut remaining = step;
        for (cell, label) in self.code.labels().enumerate().filter(|&(cell, _)| has(self.unset, cell)) {
            if remaining == 0 {
                break;
            }
            // A cell begins a smallest set where it leaves fewer cells to those after it.
            let rest = self.code.group.step(label, remaining);
            if self.rows[cell + 1][rest] < self.rows[cell][remaining] {
                plan |= 1 << cell;
                remaining = rest;
            }
        }
        Some(plan)
    }
}

/// The row of the table one cell earlier, where that cell is unset: it is left out or taken, whichever needs fewer.
fn with_label(group: Group, later: &[u8; MAX_ORDER], label: Element) -> [u8; MAX_ORDER] {
    let mut taken = [UNREACHABLE; MAX_ORDER];
    for (element, &fewest) in later.iter().enumerate().take(group.order()) {
        taken[group.sum(element, label)] = fewest.saturating_add(1);
    }
    std::array::from_fn(|element| later[element].min(taken[element]))
}

/// Where a record lies.
#[derive(Clone, Copy)]
struct Place {
    page: usize,
    first_cell: usize,
}

/// A layout that has room for records of a code.
struct Store {
    layout: Layout,
    code: Code,
}

impl Store {
    fn open(kind: u32, parameter: u32, n: u32, image: &[u8]) -> Result<Self, Fault> {
        let layout = check(image)?;
        let code = Code::new(Group::named(kind, parameter)?, n)?;
        if layout.width < code.n {
            return Err(Fault::PageTooNarrow);
        }
        Ok(Store { layout, code })
    }

    fn records_to_page(&self) -> usize {
        MAX_RECORDS_TO_PAGE.min(self.layout.width / self.code.n)
    }

    fn place(&self, record: u32) -> Result<Place, Fault> {
        let record = usize::try_from(record).map_err(|_| Fault::NoRecord)?;
        let page = record / self.records_to_page();
        if page >= self.layout.pages {
            return Err(Fault::NoRecord);
        }
        Ok(Place { page, first_cell: record % self.records_to_page() * self.code.n })
    }

    /// The places of all records of a page, in rising order.
    fn places(&self, page: usize) -> impl Iterator<Item = Place> {
        let n = self.code.n;
        (0..self.records_to_page()).map(move |index| Place { page, first_cell: index * n })
    }

    fn set_cells(&self, image: &[u8], place: Place) -> CellSet {
        let page = &image[self.layout.page_range(place.page)];
        let is_set = |cell: usize| page[cell / 8] >> (cell % 8) & 1 == 0;
        let cells = place.first_cell..place.first_cell + self.code.n;
        cells.enumerate().fold(0, |set, (index, cell)| set | u64::from(is_set(cell)) << index)
    }

    fn mark(&self, image: &mut [u8], place: Place, plan: CellSet) {
        let page = &mut image[self.layout.page_range(place.page)];
        for index in (0..self.code.n).filter(|&index| has(plan, index)) {
            let cell = place.first_cell + index;
            page[cell / 8] &= !(1 << (cell % 8));
        }
    }

    fn value(&self, image: &[u8], place: Place) -> Element {
        self.code.value(self.set_cells(image, place))
    }

    /// The plan that brings a record to the target, if there is any.
    fn plan(&self, image: &[u8], place: Place, target: Element) -> Option<CellSet> {
        let set = self.set_cells(image, place);
        let step = self.code.group.step(self.code.value(set), target);
        Reach::over(self.code, self.code.all_cells() & !set).plan(step)
    }

    /// Erases the page of a record and writes all its records from empty, the named one with the target and every
    /// other one with its value. Answers the number of cells marked.
    fn rewrite_page(&self, image: &mut [u8], named: Place, target: Element, empty: &Reach) -> u32 {
        let mut values = [0; MAX_RECORDS_TO_PAGE];
        for (value, place) in values.iter_mut().zip(self.places(named.page)) {
            *value = if place.first_cell == named.first_cell { target } else { self.value(image, place) };
        }
        self.layout.erase(image, named.page);
        let mut marked = 0;
        for (&value, place) in values.iter().zip(self.places(named.page)) {
            let plan = empty.plan(value).expect("the cells set before, or the plan for the target, sum to the value");
            self.mark(image, place, plan);
            marked += plan.count_ones();
        }
        marked
    }
}
