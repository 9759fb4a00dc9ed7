//! Req 03 of document 02, "Flash only clears bits": sessions on plan F worked out by hand from the
//! paper, beside plan E, which is plan F with a chip that stores. Bytes are and-ed by hand too.

mod bench;

use bench::{Bench, PLAN_E};
use model::plan::{load, Area, Chip, Device, Plan, SubArea};
use model::plans::{encode, plan_e, plan_f};
use std::ops::Range;

/// A look at image and store.
impl Bench {
    fn image(&self, bytes: Range<usize>) -> &[u8] {
        &self.0.image[bytes]
    }

    fn set_image(&mut self, start: usize, bytes: &[u8]) {
        self.0.image[start..start + bytes.len()].copy_from_slice(bytes);
    }

    fn store(&self, bytes: Range<usize>) -> &[u8] {
        &self.0.store[bytes]
    }

    fn set_store(&mut self, start: usize, bytes: &[u8]) {
        self.0.store[start..start + bytes.len()].copy_from_slice(bytes);
    }
}

/// A fresh bench on plan E and one on plan F, both of patience 3.
fn on_e_and_f() -> [Bench; 2] {
    [Bench::on(&plan_e(3)), Bench::on(&plan_f(3))]
}

/// Plan F byte for byte: plan E with the other mark, as "the layout is the old one".
fn plan_f_bytes() -> [u8; 174] {
    let mut bytes = PLAN_E;
    bytes[1] = 0x46;
    bytes
}

#[test]
fn plan_f_to_the_byte() {
    assert_eq!(encode(&plan_f(3)), plan_f_bytes());
    assert_eq!(load(&plan_f_bytes()), Ok(plan_f(3)));
}

/// "Whole records with known marks": the marks beside 44 46 are none.
#[test]
fn marks_beside_it_are_unknown() {
    for second in [0x45, 0x47] {
        let mut bytes = plan_f_bytes();
        bytes[1] = second;
        assert_eq!(load(&bytes), Err(1), "44 {second:02x}");
    }
}

/// The page at 0 gets the store's zeros; then a read brings the 255 behind it to the window.
const ZEROS_AND_A_WINDOW_OF_255: [(&str, &str); 6] = [
    ("1 0 0 4", "0"),
    ("0 p", "R 0:1:0:4"),
    ("0 d", "R -"),
    ("2 0 4 4", "0"),
    ("0 p", "R 0:2:4:4"),
    ("0 d", "R -"),
];

/// The write of 255 succeeds, and the compare with the same window tells what it left.
#[test]
fn zeros_stay_zeros() {
    let answers = [("0 4 1 0 0 0", [255; 4]), ("2 0 1 0 0 0", [0; 4])];
    for (mut bench, (compared, left)) in on_e_and_f().into_iter().zip(answers) {
        bench.run(&ZEROS_AND_A_WINDOW_OF_255);
        bench.run(&[
            ("1 0 0 4", "0"),
            ("0 p", "R 0:1:0:4"),
            ("0 d", "R -"),
            ("10 0", "0 4 1 0 0 0"),
            ("3 0 0 4", "0"),
            ("0 p", "R 0:3:0:4"),
            ("0 d", "R -"),
            ("10 0", compared),
        ]);
        assert_eq!(bench.image(0..4), left);
    }
}

/// The same where the write fails after two bytes, without a retry: "and so do the first k bytes of a
/// failed one".
#[test]
fn zeros_stay_zeros_under_a_failed_write() {
    let answers = [("0 2 1 0 0 0", [255, 255, 0, 0]), ("2 0 1 0 0 0", [0; 4])];
    for (mut bench, (compared, left)) in on_e_and_f().into_iter().zip(answers) {
        bench.run(&ZEROS_AND_A_WINDOW_OF_255);
        bench.run(&[
            ("1 0 0 4", "0"),
            ("0 p", "R 0:1:0:4"),
            ("0 2", "R -"),
            ("10 0", "1 0 1 0 0 0"),
            ("3 0 0 2", "0"),
            ("0 p", "R 0:3:0:2"),
            ("0 d", "R -"),
            ("10 0", compared),
        ]);
        assert_eq!(bench.image(0..4), left);
    }
}

/// What is there, what is written, and the one and-ed with the other.
const OLD: [u8; 4] = [0xF0, 0x0F, 0xAA, 0xFF];
const WRITTEN: [u8; 4] = [0x3C; 4];
const AND_ED: [u8; 4] = [0x30, 0x0C, 0x28, 0x3C];

/// A bench on which area 1 writes these bytes over the old ones: the request runs.
fn area_1_writes(plan: &Plan) -> Bench {
    let mut bench = Bench::on(plan);
    bench.set_image(16, &OLD);
    bench.set_store(8, &WRITTEN);
    bench.run(&[("1 1 256 4", "0"), ("0 p", "R 1:1:16:4")]);
    bench
}

#[test]
fn done_write() {
    let mut bench = area_1_writes(&plan_f(3));
    bench.run(&[("0 d", "R -"), ("10 1", "0 4 1 0 0 0")]);
    assert_eq!(bench.image(16..20), AND_ED);
    assert_eq!(bench.store(8..12), WRITTEN);
    let mut bench = area_1_writes(&plan_e(3));
    bench.run(&[("0 d", "R -"), ("10 1", "0 4 1 0 0 0")]);
    assert_eq!(bench.image(16..20), WRITTEN);
}

/// Area 1 has a retry. The first two bytes are and-ed before it, and then, as all are, with what the
/// window holds by then.
#[test]
fn failed_write_before_a_retry() {
    let answers = [
        ([0x3C, 0x3C, 0xAA, 0xFF], [0xC3, 0xC3, 0xC3, 0xC3]),
        ([0x30, 0x0C, 0xAA, 0xFF], [0x00, 0x00, 0x82, 0xC3]),
    ];
    for (plan, (failed, done)) in [plan_e(3), plan_f(3)].iter().zip(answers) {
        let mut bench = area_1_writes(plan);
        bench.run(&[("0 2", "R 1:1:16:4")]);
        assert_eq!(bench.image(16..20), failed);
        bench.set_store(8, &[0xC3; 4]);
        bench.run(&[("0 d", "R -"), ("10 1", "0 4 2 0 0 0")]);
        assert_eq!(bench.image(16..20), done);
    }
}

/// "(all if k is larger)", and still failed: the retry is due, and fails without a byte.
#[test]
fn failed_write_of_more_bytes_than_the_piece() {
    let mut bench = area_1_writes(&plan_f(3));
    bench.run(&[("0 9", "R 1:1:16:4"), ("0 0", "R -"), ("10 1", "1 0 2 0 0 0")]);
    assert_eq!(bench.image(16..21), [0x30, 0x0C, 0x28, 0x3C, 0xFF]);
}

/// A request that the driver drops has acted on nothing.
#[test]
fn dropped_write() {
    let mut bench = area_1_writes(&plan_f(3));
    bench.run(&[("0 p", "R 1:1:16:4"), ("0 p", "R 1:1:16:4"), ("0 p", "R 1:1:16:4")]);
    bench.run(&[("0 0", "R -"), ("10 1", "1 0 4 0 0 0")]);
    assert_eq!(bench.image(16..20), OLD);
}

/// "Bytes and processed length follow the request as usual": failed after three bytes, and done.
#[test]
fn write_of_a_cancelled_job() {
    let mut bench = area_1_writes(&plan_f(3));
    bench.run(&[("9 1", "0"), ("0 3", "R -"), ("10 1", "3 0 1 0 0 0")]);
    assert_eq!(bench.image(16..20), [0x30, 0x0C, 0x28, 0xFF]);
    let mut bench = area_1_writes(&plan_f(3));
    bench.run(&[("9 1", "0"), ("0 d", "R -"), ("10 1", "3 4 1 0 0 0")]);
    assert_eq!(bench.image(16..20), AND_ED);
}

/// Of two pages the first is done, the second fails after a byte: each takes its own part of the
/// window.
#[test]
fn write_of_two_pages() {
    let mut bench = Bench::on(&plan_f(3));
    bench.set_image(0, &[0xF0; 8]);
    bench.set_store(0, &[0x3C, 0x3C, 0x3C, 0x3C, 0xC3, 0xC3, 0xC3, 0xC3]);
    bench.run(&[
        ("1 0 0 8", "0"),
        ("0 p", "R 0:1:0:4"),
        ("0 d", "R 0:1:4:4"),
        ("0 1", "R -"),
        ("10 0", "1 4 2 0 0 0"),
    ]);
    assert_eq!(bench.image(0..8), [0x30, 0x30, 0x30, 0x30, 0xC0, 0xF0, 0xF0, 0xF0]);
}

/// The page at 512 of area 2 with one version written, then the other. Of the characters 2B and 2D
/// leave 29, 34 and 32 leave 30, and the last two are the same in both.
fn page_written_twice(plan: &Plan) -> Bench {
    let mut bench = Bench::on(plan);
    for version in [b"+4 C", b"-2 C"] {
        bench.set_store(16, version);
        bench.run(&[("1 2 512 4", "0"), ("0 p", "R 2:1:32:4"), ("0 d", "R -")]);
        bench.run(&[("10 2", "0 4 1 0 0 0")]);
    }
    bench
}

/// "Service staff saw a log page written twice and read back as neither version."
#[test]
fn page_reads_back_as_neither_version() {
    for (plan, read) in [(plan_e(3), b"-2 C"), (plan_f(3), b")0 C")] {
        let mut bench = page_written_twice(&plan);
        assert_eq!(bench.image(32..36), read);
        assert_eq!(bench.store(16..20), b"-2 C");
        bench.run(&[("2 2 512 4", "0"), ("0 p", "R 2:2:32:4"), ("0 d", "R -")]);
        assert_eq!(bench.store(16..20), read);
    }
}

/// "Done erase: 255 throughout." A failed one has acted on its first bytes. Behind it a write leaves
/// the window bytes.
#[test]
fn erase_brings_the_bits_back() {
    let mut bench = page_written_twice(&plan_f(3));
    bench.run(&[("4 2 512 16", "0"), ("0 p", "R 2:4:32:16"), ("0 1", "R -")]);
    assert_eq!(bench.image(32..36), [0xFF, b'0', b' ', b'C']);
    bench.run(&[("4 2 512 16", "0"), ("0 p", "R 2:4:32:16"), ("0 d", "R -")]);
    assert_eq!(bench.image(32..48), [0xFF; 16]);
    bench.run(&[("1 2 512 4", "0"), ("0 p", "R 2:1:32:4"), ("0 d", "R -")]);
    assert_eq!(bench.image(32..36), b"-2 C");
    bench.run(&[("3 2 512 4", "0"), ("0 p", "R 2:3:32:4"), ("0 d", "R -")]);
    bench.run(&[("10 2", "0 4 1 0 0 0")]);
}

/// Done or failed, whatever the bytes are: here every image byte is its own number.
#[test]
fn other_requests_change_no_image_byte() {
    let numbers: [u8; 64] = std::array::from_fn(|byte| u8::try_from(byte).expect("below 64"));
    let mut bench = Bench::on(&plan_f(3));
    bench.set_image(0, &numbers);
    bench.run(&[
        ("2 0 0 8", "0"),
        ("0 p", "R 0:2:0:8"),
        ("0 3", "R -"),
        ("10 0", "1 0 1 0 0 0"),
        ("2 0 0 8", "0"),
        ("0 p", "R 0:2:0:8"),
        ("0 d", "R -"),
        ("3 0 0 8", "0"),
        ("0 p", "R 0:3:0:8"),
        ("0 d", "R -"),
        ("10 0", "0 8 1 0 0 0"),
        ("3 0 8 8", "0"),
        ("0 p", "R 0:3:8:8"),
        ("0 d", "R -"),
        ("10 0", "2 0 1 0 0 0"),
        ("3 0 0 8", "0"),
        ("0 p", "R 0:3:0:8"),
        ("0 3", "R -"),
        ("6 0 0 8", "0"),
        ("0 p", "R 0:6:0:8"),
        ("0 3", "R -"),
        ("6 0 0 8", "0"),
        ("0 p", "R 0:6:0:8"),
        ("0 d", "R -"),
        ("10 0", "2 0 1 0 0 0"),
    ]);
    assert_eq!(bench.image(0..64), numbers);
    assert_eq!(bench.store(0..8), [0, 1, 2, 3, 4, 5, 6, 7]);
}

/// "which can pause too": the erase has 2 polls when it gives way to a write; the first one after its
/// resume drops it. What is written over it is and-ed.
#[test]
fn erase_gives_way() {
    for (mut bench, left) in on_e_and_f().into_iter().zip([WRITTEN, AND_ED]) {
        bench.set_image(16, &OLD);
        bench.set_store(8, &WRITTEN);
        bench.run(&[
            ("4 0 0 16", "0"),
            ("0 p", "R 0:4:0:16"),
            ("0 p", "R 0:4:0:16"),
            ("1 1 256 4", "0"),
            ("0 p", "R 1:1:16:4"),
            ("10 0", "0 0 2 1 0 0"),
            ("0 d", "R 0:4:0:16"),
            ("0 p", "R -"),
            ("10 0", "1 0 3 1 0 0"),
            ("10 1", "0 4 1 0 0 0"),
        ]);
        assert_eq!(bench.image(16..20), left);
    }
}

/// Below of area 2 is 2 (3 - 1): two rounds for the piece, two for the resumed erase.
#[test]
fn below_reaches_its_doubled_bound() {
    for mut bench in on_e_and_f() {
        bench.run(&[
            ("4 0 0 16", "0"),
            ("0 p", "R 0:4:0:16"),
            ("1 1 256 4", "0"),
            ("0 p", "R 1:1:16:4"),
            ("4 2 512 16", "0"),
            ("0 p", "R 1:1:16:4"),
            ("0 p", "R 1:1:16:4"),
            ("0 d", "R 0:4:0:16"),
            ("0 p", "R 0:4:0:16"),
            ("10 2", "0 0 0 0 4 0"),
            ("0 d", "R 2:4:32:16"),
            ("0 d", "R -"),
            ("10 2", "0 16 1 0 4 0"),
        ]);
    }
}

/// A device of 32 bytes for each mark, with two areas of 16 bytes on it, the second above the first.
fn all_marks() -> Plan {
    let device = |(start, chip)| Device { start, length: 32, patience: 3, chip };
    let area = |number: u32| Area {
        priority: if number.is_multiple_of(2) { 1 } else { 5 },
        logical_start: 0,
        window_start: 4 * number,
        window_length: 4,
    };
    let sub_area = |area: u8| SubArea {
        area,
        device: area / 2,
        start: 16 * u32::from(area),
        ..plan_e(3).sub_areas[0]
    };
    let chips = [(0, Chip::Plain), (32, Chip::Suspending), (64, Chip::Clearing)];
    Plan {
        devices: chips.map(device).to_vec(),
        areas: (0..6).map(area).collect(),
        sub_areas: (0..6).map(sub_area).collect(),
        wear_records: Vec::new(),
    }
}

/// On each chip an area erases, and the one above it writes over old bytes: the plain chip lets the
/// erase end first, the others do not; the last one and-s.
#[test]
fn each_chip_does_what_its_mark_says() {
    let mut bench = Bench::on(&all_marks());
    for area in [1, 3, 5] {
        bench.set_image(16 * area, &OLD);
        bench.set_store(4 * area, &WRITTEN);
    }
    bench.run(&[
        ("4 0 0 16", "0"),
        ("4 2 0 16", "0"),
        ("4 4 0 16", "0"),
        ("0 p p p", "R 0:4:0:16 2:4:32:16 4:4:64:16"),
        ("1 1 0 4", "0"),
        ("1 3 0 4", "0"),
        ("1 5 0 4", "0"),
        ("0 p p p", "R 0:4:0:16 3:1:48:4 5:1:80:4"),
        ("0 d d d", "R 1:1:16:4 2:4:32:16 4:4:64:16"),
        ("0 d d d", "R - - -"),
        ("10 0", "0 16 2 0 0 0"),
        ("10 1", "0 4 1 0 1 0"),
        ("10 2", "0 16 2 1 0 0"),
        ("10 3", "0 4 1 0 0 0"),
        ("10 4", "0 16 2 1 0 0"),
        ("10 5", "0 4 1 0 0 0"),
    ]);
    assert_eq!(bench.image(16..20), WRITTEN);
    assert_eq!(bench.image(48..52), WRITTEN);
    assert_eq!(bench.image(80..84), AND_ED);
}
