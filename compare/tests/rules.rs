//! The plain version against examples worked by hand and against a search of all sets of cells.

use compare::code::{order, CellSet, Code};
use compare::plain::{check, get, put, renew, Fault, Layout};
use compare::sample::{erased_image, Random};

const INTEGERS: u32 = 0;
const VECTORS: u32 = 1;

/// One page of as many cells as there are in one record, with the given cells set.
fn record_with(n: u16, set: &[usize]) -> Vec<u8> {
    let mut image = erased_image(&[0], n);
    set.iter().for_each(|cell| image[7 + cell / 8] &= !(1 << (cell % 8)));
    image
}

fn set_cells(image: &[u8]) -> Vec<usize> {
    (0..(image.len() - 7) * 8).filter(|cell| image[7 + cell / 8] >> (cell % 8) & 1 == 0).collect()
}

#[test]
fn image_check_goes_in_reading_order() {
    let good = Ok(Layout { pages: 1, width: 6 });
    let cases: [(&[u8], Result<Layout, Fault>); 14] = [
        (&[], Err(Fault::Truncated)),
        (&[0], Err(Fault::PageCount)),
        (&[0x41], Err(Fault::PageCount)),
        (&[2, 0, 0, 0x27, 0x11], Err(Fault::WearCount)),
        (&[2, 0, 0, 0x27], Err(Fault::Truncated)),
        (&[1, 0, 0, 0, 0, 0], Err(Fault::Truncated)),
        (&[1, 0, 0, 0, 0, 0, 0], Err(Fault::Width)),
        (&[1, 0, 0, 0, 0, 0, 6], Err(Fault::Truncated)),
        (&[1, 0, 0, 0, 0, 0, 6, 0xFF], good),
        (&[1, 0, 0, 0x27, 0x10, 0, 6, 0xFF], good),
        (&[1, 0, 0, 0, 0, 0, 6, 0x7F], Err(Fault::StrayBit)),
        (&[1, 0, 0, 0, 0, 0, 6, 0xFF, 0], Err(Fault::TrailingBytes)),
        (&[1, 0, 0, 0, 0, 0, 6, 0x7F, 0], Err(Fault::StrayBit)),
        (&[2, 0, 0, 0, 0, 0, 0, 0, 0, 0, 6, 0x7F], Err(Fault::Truncated)),
    ];
    for (image, expected) in cases {
        assert_eq!(check(image), expected, "{image:02X?}");
    }
}

#[test]
fn values_and_puts_worked_by_hand() {
    let z7 = |set: &[usize]| record_with(6, set);
    assert_eq!(get(INTEGERS, 7, 6, 0, &z7(&[0, 4])), 6);
    assert_eq!(put(INTEGERS, 7, 6, 0, 3, &mut z7(&[])), 1);
    let mut image = z7(&[2]);
    assert_eq!(put(INTEGERS, 7, 6, 0, 6, &mut image), 2);
    assert_eq!(set_cells(&image), [0, 1, 2]);
    let mut image = z7(&[3, 4, 5]);
    assert_eq!(put(INTEGERS, 7, 6, 0, 0, &mut image), 3);
    assert_eq!(set_cells(&image), [0, 1, 2, 3, 4, 5]);
    assert_eq!(put(INTEGERS, 7, 6, 0, 1, &mut image), 10_042);
    assert_eq!(put(INTEGERS, 7, 6, 0, 0, &mut image), 0);
    let mut image = record_with(3, &[0]);
    assert_eq!(put(VECTORS, 2, 3, 0, 0, &mut image), 2);
    assert_eq!(set_cells(&image), [0, 1, 2]);
    let mut image = record_with(1, &[]);
    assert_eq!(put(INTEGERS, 4, 1, 0, 2, &mut image), 10_042);
    assert_eq!(renew(INTEGERS, 4, 1, 0, 2, &mut image), 10_044);
    assert_eq!(put(INTEGERS, 4, 1, 0, 1, &mut image), 1);
}

#[test]
fn sample_sequence() {
    let mut image = erased_image(&[0], 6);
    assert_eq!(put(VECTORS, 2, 3, 0, 1, &mut image), 1);
    assert_eq!(put(VECTORS, 2, 3, 0, 0, &mut image), 2);
    assert_eq!(put(VECTORS, 2, 3, 1, 2, &mut image), 1);
    assert_eq!(put(VECTORS, 2, 3, 0, 3, &mut image), 10_042);
    assert_eq!(renew(VECTORS, 2, 3, 1, 3, &mut image), 10_043);
    assert_eq!(renew(VECTORS, 2, 3, 0, 3, &mut image), 2);
    assert_eq!(image, [1, 0, 0, 0, 1, 0, 6, 0b1110_1011]);
    assert_eq!(get(VECTORS, 2, 3, 1, &image), 2);
    assert_eq!(get(VECTORS, 2, 3, 2, &image), 10_040);
}

#[test]
fn refusals_of_the_making_and_of_wear() {
    let image = erased_image(&[0], 64);
    assert_eq!(get(INTEGERS, 64, 63, 0, &image), 0);
    assert_eq!(get(INTEGERS, 65, 0, 0, &image), 10_030);
    assert_eq!(get(2, 7, 6, 0, &image), 10_030);
    assert_eq!(get(INTEGERS, 64, 64, 0, &image), 10_031);
    assert_eq!(get(INTEGERS, 7, 6, 0, &erased_image(&[0], 5)), 10_032);
    for (wear, answer) in [(9_999, 0), (10_000, 10_022)] {
        let mut image = erased_image(&[wear], 1);
        assert_eq!(put(INTEGERS, 2, 1, 0, 1, &mut image), 1);
        assert_eq!(renew(INTEGERS, 2, 1, 0, 0, &mut image), answer);
    }
}

/// Each page has two records of four cells, which have the labels 1 to 4, and a cell to spare. From empty, 1 + 4 comes
/// before 2 + 3, for the named record and for the other one.
#[test]
fn renewal_of_a_page() {
    let mut image = [2, 0, 0, 0, 3, 0, 0, 0, 255, 0, 9, 0b0101_1010, 0xFE, 0b1001_0101, 0xFE];
    assert_eq!([2, 3].map(|record| get(INTEGERS, 7, 4, record, &image)), [6, 5]);
    assert_eq!(renew(INTEGERS, 7, 4, 2, 5, &mut image), 4);
    assert_eq!(image, [2, 0, 0, 0, 3, 0, 0, 1, 0, 0, 9, 0b0101_1010, 0xFE, 0b0110_0110, 0xFF]);
}

/// The numbers of the cells, rising.
fn members(cells: CellSet) -> Vec<usize> {
    (0..64).filter(|cell| cells >> cell & 1 == 1).collect()
}

#[test]
fn puts_and_renewals_against_a_search() {
    let mut random = Random::new(7);
    for _ in 0..20_000 {
        let kind = random.between(0, 1);
        let parameter = if kind == INTEGERS { random.between(2, 20) } else { random.between(1, 5) };
        let n = random.between(1, 10);
        let code = Code { kind, parameter, n };
        let set = random.word() & random.word() & ((1 << n) - 1);
        let target = random.between(0, order(kind, parameter) - 1);
        let mut image = record_with(n as u16, &members(set));
        if let Some(plan) = code.plan(set, target) {
            assert_eq!(renew(kind, parameter, n, 0, target, &mut image), 10_043);
            assert_eq!(put(kind, parameter, n, 0, target, &mut image), plan.count_ones());
            assert_eq!(set_cells(&image), members(set | plan));
        } else if let Some(plan) = code.plan(0, target) {
            assert_eq!(put(kind, parameter, n, 0, target, &mut image), 10_042);
            assert_eq!(renew(kind, parameter, n, 0, target, &mut image), plan.count_ones());
            assert_eq!(set_cells(&image), members(plan));
        } else {
            assert_eq!(put(kind, parameter, n, 0, target, &mut image), 10_042);
            assert_eq!(renew(kind, parameter, n, 0, target, &mut image), 10_044);
        }
    }
}
