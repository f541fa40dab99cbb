//! Pseudo-random numbers and flash images made from them.

/// The splitmix64 generator.
pub struct Random(u64);

impl Random {
    pub fn new(seed: u64) -> Self {
        Random(seed)
    }

    pub fn word(&mut self) -> u64 {
        self.0 = self.0.wrapping_add(0x9E37_79B9_7F4A_7C15);
        let mut word = self.0;
        word = (word ^ word >> 30).wrapping_mul(0xBF58_476D_1CE4_E5B9);
        word = (word ^ word >> 27).wrapping_mul(0x94D0_49BB_1331_11EB);
        word ^ word >> 31
    }

    pub fn number(&mut self) -> u32 {
        (self.word() >> 32) as u32
    }

    /// A number from `low` to `high`, both included.
    pub fn between(&mut self, low: u32, high: u32) -> u32 {
        let choices = u64::from(high - low) + 1;
        low + ((u64::from(self.number()) * choices) >> 32) as u32
    }

    /// True once in so many times.
    pub fn once_in(&mut self, times: u32) -> bool {
        self.between(1, times) == 1
    }

    pub fn pick<T: Copy>(&mut self, choices: &[T]) -> T {
        choices[self.between(0, choices.len() as u32 - 1) as usize]
    }
}

/// Writes out a flash image with one page for each wear count. The wear counts and the width are taken as they are,
/// out of bounds or not. The cells are all unset.
pub fn erased_image(wears: &[u32], width: u16) -> Vec<u8> {
    let mut image = vec![wears.len() as u8];
    image.extend(wears.iter().flat_map(|wear| wear.to_be_bytes()));
    image.extend(width.to_be_bytes());
    image.resize(image.len() + wears.len() * usize::from(width).div_ceil(8), 0xFF);
    image
}

/// Sets each cell of a page of a good image with a chance of so many in 16.
pub fn set_some_cells(image: &mut [u8], page: usize, sixteenths: u32, random: &mut Random) {
    let shape = Shape::of(image);
    for cell in 0..shape.width {
        if random.between(0, 15) < sixteenths {
            image[shape.byte_of(page, cell)] &= !(1 << (cell % 8));
        }
    }
}

/// The shape of a good flash image.
#[derive(Clone, Copy)]
pub struct Shape {
    pub pages: usize,
    /// Cells to a page.
    pub width: usize,
}

impl Shape {
    /// Reads the two counts of a good image. No bounds are checked.
    pub fn of(image: &[u8]) -> Self {
        let pages = usize::from(image[0]);
        let counts = 1 + 4 * pages;
        Shape { pages, width: usize::from(image[counts]) << 8 | usize::from(image[counts + 1]) }
    }

    /// Records of so many cells that a page holds.
    pub fn records_to_page(self, n: u32) -> u32 {
        (self.width as u32 / n).min(64)
    }

    /// Bytes to a page.
    pub fn page_length(self) -> usize {
        self.width.div_ceil(8)
    }

    /// The first byte of a page.
    pub fn page_start(self, page: usize) -> usize {
        3 + 4 * self.pages + page * self.page_length()
    }

    /// The byte that holds a cell, as bit (cell mod 8).
    pub fn byte_of(self, page: usize, cell: usize) -> usize {
        self.page_start(page) + cell / 8
    }
}
