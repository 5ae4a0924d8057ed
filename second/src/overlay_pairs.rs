//! Pairs of films to lay over each other: equal and differing ones of all widths,
//! and files with every kind of fault.

use crate::stream::Sequence;
use std::path::Path;

pub struct Pair {
    pub kind: &'static str,
    pub first: Vec<u8>,
    pub second: Vec<u8>,
}

/// A raster's size.
#[derive(Clone, Copy)]
struct Size(usize, usize);

impl Size {
    fn length(self) -> usize {
        self.1 * self.0.div_ceil(8)
    }

    fn spare(self) -> usize {
        8 * self.0.div_ceil(8) - self.0
    }

    fn file(self, data: &[u8]) -> Vec<u8> {
        [self.header().as_slice(), data].concat()
    }

    fn header(self) -> Vec<u8> {
        format!("P4\n{} {}\n", self.0, self.1).into_bytes()
    }

    /// Turns over the pixel of this column in the row that is this far from the top.
    fn turn(self, data: &mut [u8], column: usize, from_top: usize) {
        data[from_top * self.0.div_ceil(8) + column / 8] ^= 128 >> (column % 8);
    }

    /// Changes each row's last byte.
    fn last_bytes(self, data: &mut [u8], mut change: impl FnMut(u8) -> u8) {
        for row in data.chunks_mut(self.0.div_ceil(8)) {
            if let Some(last) = row.last_mut() {
                *last = change(*last);
            }
        }
    }
}

fn noise(sequence: &mut Sequence, length: usize) -> Vec<u8> {
    (0..length).map(|_| sequence.next() as u8).collect()
}

fn pick<T: Copy>(sequence: &mut Sequence, list: &[T]) -> T {
    list[sequence.below(list.len() as u64) as usize]
}

/// The widths at which bytes and words begin and end.
fn widths() -> Vec<usize> {
    let around = [24, 32, 40, 48, 56, 64, 72, 128, 192, 256, 512, 1_024, 2_048];
    let around = around.iter().flat_map(|n| n - 1..=n + 1);
    (1..=17).chain(around).collect()
}

struct Maker {
    sequence: Sequence,
    pairs: Vec<Pair>,
}

impl Maker {
    fn add(&mut self, kind: &'static str, first: &[u8], second: &[u8]) {
        self.pairs.push(Pair {
            kind,
            first: first.to_vec(),
            second: second.to_vec(),
        });
    }

    /// Both ways round.
    fn add_both(&mut self, kind: &'static str, one: &[u8], other: &[u8]) {
        self.add(kind, one, other);
        self.add(kind, other, one);
    }

    fn noise(&mut self, size: Size) -> Vec<u8> {
        noise(&mut self.sequence, size.length())
    }

    /// All that a size can have without a fault.
    fn sound(&mut self, size: Size) {
        let Size(columns, rows) = size;
        let data = self.noise(size);
        let file = size.file(&data);
        self.add("equal", &file, &file);

        let other = size.file(&self.noise(size));
        self.add("random", &file, &other);
        let turned: Vec<u8> = data.iter().map(|byte| !byte).collect();
        self.add("every pixel differs", &file, &size.file(&turned));

        let places = [
            (0, 0),
            (columns - 1, 0),
            (0, rows - 1),
            (columns - 1, rows - 1),
            (
                self.sequence.below(columns as u64) as usize,
                self.sequence.below(rows as u64) as usize,
            ),
        ];
        for (column, row) in places {
            let mut apart = data.clone();
            size.turn(&mut apart, column, row);
            self.add("one pixel apart", &file, &size.file(&apart));
        }

        if size.spare() == 0 {
            return;
        }
        let mask = (1u8 << size.spare()) - 1;
        let mut clear = data.clone();
        size.last_bytes(&mut clear, |last| last & !mask);
        let mut set = data.clone();
        size.last_bytes(&mut set, |last| last | mask);
        let mut mixed = data.clone();
        let sequence = &mut self.sequence;
        size.last_bytes(&mut mixed, |last| last ^ (sequence.next() as u8 & mask));
        let kind = "only spare bits differ";
        self.add_both(kind, &size.file(&clear), &size.file(&set));
        self.add(kind, &file, &size.file(&mixed));
        self.add("spare bits set", &size.file(&set), &size.file(&set));
        let mut other = self.noise(size);
        size.last_bytes(&mut other, |last| last | mask);
        self.add("spare bits set", &size.file(&set), &size.file(&other));
        // The last pixel and the spare bit next to it.
        let mut next = data.clone();
        size.last_bytes(&mut next, |last| last ^ (mask + 1) ^ (mask / 2 + 1));
        self.add("spare bits set", &file, &size.file(&next));
    }

    /// Cut off at every byte: one film, the other, and both at all pairs of places.
    fn cuts(&mut self) {
        for size in [Size(11, 3), Size(128, 10)] {
            let file = size.file(&self.noise(size));
            let other = size.file(&self.noise(size));
            for length in 0..file.len() {
                self.add("first film cut off", &file[..length], &other);
                self.add("second film cut off", &file, &other[..length]);
            }
        }
        let size = Size(11, 3);
        let file = size.file(&self.noise(size));
        for one in 0..file.len() {
            for two in 0..file.len() {
                self.add("both cut off", &file[..one], &file[..two]);
            }
        }
    }

    fn extra_bytes(&mut self) {
        for size in [Size(11, 3), Size(8, 1), Size(16_384, 2), Size(1, 4_089)] {
            let file = size.file(&self.noise(size));
            let more = [
                vec![0],
                vec![b'\n'],
                vec![255, 0],
                self.noise(Size(size.0, 1)),
                noise(&mut self.sequence, 4_096),
                noise(&mut self.sequence, 70_000),
                file.clone(),
            ];
            for extra in &more {
                let long = [file.as_slice(), extra].concat();
                self.add("bytes after the first film", &long, &file);
                self.add("bytes after the second film", &file, &long);
                self.add("bytes after both films", &long, &long);
            }
            let longer = [file.as_slice(), &[0; 9]].concat();
            self.add_both(
                "bytes after both films",
                &longer,
                &longer[..longer.len() - 4],
            );
        }
    }

    /// Headers that are not document 01's; the data would do for 5 by 3 pixels.
    fn damaged_headers(&mut self) {
        let good = Size(5, 3).file(&[8, 16, 24]);
        let mut headers: Vec<Vec<u8>> = HEADERS
            .iter()
            .map(|text| text.as_bytes().to_vec())
            .collect();
        headers.push(b"P4\n5\xA03\n".to_vec());
        headers.push(b"\xEF\xBB\xBFP4\n5 3\n".to_vec());
        headers.push(b"\xFF\xFEP\x004\x00\n\x00".to_vec());
        for digits in [6, 9, 10, 11, 19, 20, 21, 40, 4_000, 5_000, 70_000] {
            let nines = "9".repeat(digits);
            let zeros = "0".repeat(digits);
            headers.push(format!("P4\n{nines} 3\n").into_bytes());
            headers.push(format!("P4\n5 {nines}\n").into_bytes());
            headers.push(format!("P4\n{zeros}5 3\n").into_bytes());
            headers.push(format!("P4\n5 {zeros}3\n").into_bytes());
            headers.push(format!("P4\n5{zeros} 3\n").into_bytes());
            headers.push(format!("P4\n{}5 3\n", " ".repeat(digits)).into_bytes());
        }
        // Sizes that a narrow number would take for 5 and 3.
        for bits in [16, 32, 63, 64] {
            let wrapped = 1u128 << bits;
            headers.push(format!("P4\n{} 3\n", wrapped + 5).into_bytes());
            headers.push(format!("P4\n5 {}\n", wrapped + 3).into_bytes());
        }
        for header in ["P4\n261 3\n", "P4\n5 259\n"] {
            let other = [header.as_bytes(), &[8, 16, 24]].concat();
            self.add_both("unequal sizes", &good, &other);
        }
        for header in headers {
            let bad = [header.as_slice(), &[8, 16, 24]].concat();
            self.add_both("bad header", &bad, &good);
            self.add("bad header in both", &bad, &bad);
        }
    }

    /// Each byte of a header becomes every other; is left out; stands twice; and
    /// each byte is put before it.
    fn changed_headers(&mut self) {
        let size = Size(11, 3);
        let header = size.header();
        let data = self.noise(size);
        let file = size.file(&data);
        for place in 0..header.len() {
            let mut lost = file.clone();
            lost.remove(place);
            self.add_both("a header's byte lost", &lost, &file);
            let mut twice = file.clone();
            twice.insert(place, file[place]);
            self.add_both("a header's byte doubled", &twice, &file);
            for byte in 0..=255 {
                let mut changed = file.clone();
                changed[place] = byte;
                self.add("a header's byte changed", &changed, &file);
                if b" \t\r\n#+-/:0123456789AP\0\x0b\x0c\x80\xff".contains(&byte) {
                    self.add("a header's byte changed", &file, &changed);
                    let mut more = file.clone();
                    more.insert(place, byte);
                    self.add_both("a byte put into a header", &more, &file);
                }
            }
        }
    }

    /// Sizes at the limits and at every number of digits, and just past them.
    fn limits(&mut self) {
        let numbers = [
            1, 2, 9, 10, 11, 99, 100, 101, 999, 1_000, 9_999, 10_000, 16_379, 16_380, 16_383,
            16_384,
        ];
        for n in numbers {
            for size in [Size(n, 1), Size(1, n), Size(n, 2), Size(9, n)] {
                let mut data = self.noise(size);
                let file = size.file(&data);
                self.add("digits of the sizes", &file, &file);
                for _ in 0..3 {
                    let column = self.sequence.below(size.0 as u64) as usize;
                    let row = self.sequence.below(size.1 as u64) as usize;
                    size.turn(&mut data, column, row);
                }
                self.add("digits of the sizes", &file, &size.file(&data));
            }
        }
        for size in [Size(16_384, 1), Size(1, 16_384)] {
            self.sound(size);
            let file = size.file(&self.noise(size));
            self.add_both(
                "the largest, short by a byte",
                &file[..file.len() - 1],
                &file,
            );
            let long = [file.as_slice(), &[0]].concat();
            self.add_both("the largest, and a byte more", &long, &file);
        }
        for n in (16_385..=16_400).chain([
            16_484, 17_000, 17_384, 20_000, 26_384, 99_999, 100_000, 163_840,
        ]) {
            for size in [Size(n, 1), Size(1, n)] {
                let file = size.file(&self.noise(size));
                self.add_both("larger than the largest", &file, &Size(1, 1).file(&[0]));
                self.add("larger than the largest", &file, &file);
            }
        }
    }

    fn unequal_sizes(&mut self) {
        // As many bytes of data in each group.
        let groups: [&[Size]; 5] = [
            &[
                Size(9, 3),
                Size(10, 3),
                Size(16, 3),
                Size(8, 6),
                Size(1, 6),
                Size(48, 1),
                Size(17, 2),
            ],
            &[
                Size(16, 8),
                Size(8, 16),
                Size(15, 8),
                Size(9, 8),
                Size(7, 16),
                Size(128, 1),
            ],
            &[
                Size(1, 8),
                Size(8, 8),
                Size(64, 1),
                Size(16, 4),
                Size(4, 8),
                Size(32, 2),
            ],
            &[
                Size(16_384, 1),
                Size(16_383, 1),
                Size(1, 2_048),
                Size(8, 2_048),
                Size(2_048, 8),
            ],
            &[Size(1, 1), Size(2, 1), Size(8, 1)],
        ];
        for group in groups {
            let data = noise(&mut self.sequence, group[0].length());
            for one in group {
                for two in group {
                    if (one.0, one.1) == (two.0, two.1) {
                        continue;
                    }
                    assert_eq!(one.length(), two.length());
                    self.add(
                        "unequal sizes, as many bytes",
                        &one.file(&data),
                        &two.file(&data),
                    );
                }
            }
        }
        for (one, two) in [
            (Size(5, 3), Size(3, 5)),
            (Size(5, 3), Size(5, 4)),
            (Size(5, 3), Size(50, 3)),
            (Size(5, 3), Size(5, 30)),
            (Size(16_384, 1), Size(1, 16_384)),
            (Size(1, 1), Size(16_384, 2)),
        ] {
            let (one, two) = (one.file(&self.noise(one)), two.file(&self.noise(two)));
            self.add_both("unequal sizes", &one, &two);
        }
    }

    /// Every pair of faults, so that the order of the refusals shows.
    fn pairs_of_faults(&mut self) {
        let size = Size(11, 3);
        let data = self.noise(size);
        let other = Size(12, 3);
        let whole = size.file(&data);
        let with = |size: Size, data: &[u8], more: &[u8]| size.file(&[data, more].concat());
        let faults: Vec<Vec<u8>> = vec![
            whole.clone(),
            Vec::new(),
            b"P4\n11 03\n".to_vec(),
            [b"P4\n16385 3\n", data.as_slice()].concat(),
            [b"P4 11 3\n", data.as_slice(), &[0]].concat(),
            whole[..7].to_vec(),
            size.header(),
            with(size, &data[..3], &[]),
            with(size, &data[..5], &[]),
            with(size, &data, &[0]),
            with(size, &data, &data),
            other.file(&data),
            other.header(),
            with(other, &data[..5], &[]),
            with(other, &data, &[7]),
            with(Size(11, 16_384), &data, &[]),
        ];
        for one in &faults {
            for two in &faults {
                self.add("pairs of faults", one, two);
            }
        }
    }

    fn first_bytes(&mut self) {
        let size = Size(11, 3);
        for byte in b"#\n \t\r\x00019P4\x0b\x0c+-" {
            let mut data = self.noise(size);
            let other = size.file(&data);
            data[0] = *byte;
            let file = size.file(&data);
            self.add_both("data that look like a header", &file, &other);
            self.add("data that look like a header", &file, &file);
            // A short film that skipping white space or comments would make shorter.
            let short = &file[..file.len() - 1];
            self.add_both("data that look like a header", short, &file);
            let more = [size.header(), vec![*byte], data.clone()].concat();
            self.add_both("data that look like a header", &more, &file);
            data[1] = b'\n';
            let file = size.file(&data);
            self.add_both("data that look like a header", &file, &other);
        }
        let inside = [size.header().as_slice(), b"P4\n11 "].concat();
        self.add("data that look like a header", &inside, &inside);
    }

    /// Differences, cuts and more bytes near the places where pieces of a file that
    /// is read or written bit by bit may end.
    fn far_places(&mut self) {
        let size = Size(2_048, 530);
        let header = size.header().len();
        let data = self.noise(size);
        let file = size.file(&data);
        for edge in [
            512, 1_024, 2_048, 4_096, 8_192, 16_384, 32_768, 65_536, 131_072,
        ] {
            for place in [edge - 1, edge, edge - header - 1, edge - header] {
                let mut apart = data.clone();
                apart[place] ^= 1 << self.sequence.below(8);
                self.add("far into the file", &file, &size.file(&apart));
            }
        }
        // Files that end at such a place, one byte before it, or one after.
        for rows in [
            253, 509, 1_020, 4_087, 4_088, 4_089, 8_183, 8_184, 8_185, 16_375, 16_376, 16_377,
        ] {
            let size = Size(8, rows);
            let mut data = self.noise(size);
            let file = size.file(&data);
            data[rows - 1] ^= 1;
            let apart = size.file(&data);
            self.add("ends at such a place", &file, &apart);
            self.add_both("ends at such a place", &file[..file.len() - 1], &apart);
            self.add_both(
                "ends at such a place",
                &[file.as_slice(), &[0]].concat(),
                &apart,
            );
        }
        for rows in [255, 256, 257] {
            let size = Size(2_048, rows);
            let mut data = self.noise(size);
            let file = size.file(&data);
            let last = data.len() - 1;
            data[last] ^= 1;
            self.add("ends at such a place", &file, &size.file(&data));
        }
        // Reports of more than 65,536 bytes, whose lines have all lengths.
        for size in [Size(16_384, 2), Size(1_100, 1_100 / 8), Size(3, 12_000)] {
            let file = size.file(&self.noise(size));
            let other = size.file(&self.noise(size));
            self.add("long reports", &file, &other);
        }
    }

    fn random(&mut self) {
        let sequence = &mut self.sequence;
        let columns = match sequence.below(4) {
            0 => pick(sequence, &widths()),
            1 => 1 + sequence.below(600) as usize,
            _ => 1 + sequence.below(40) as usize,
        };
        let size = Size(columns, 1 + sequence.below(12) as usize);
        let data = noise(sequence, size.length());
        let mut other = data.clone();
        // From no change to many.
        let changes = sequence.below(9);
        for _ in 0..changes * changes {
            let place = sequence.below(other.len() as u64) as usize;
            other[place] ^= 1 << sequence.below(8);
        }
        let mut files = [size.file(&data), size.file(&other)];
        let mut kind = "random changes";
        if sequence.below(4) == 0 {
            kind = "random damage";
            for _ in 0..1 + sequence.below(2) {
                let file = &mut files[sequence.below(2) as usize];
                let place = sequence.below(file.len() as u64 + 1) as usize;
                match sequence.below(4) {
                    0 => file.truncate(place),
                    1 => file.insert(place, pick(sequence, b"\n 0159#\0\xff")),
                    2 => file.insert(place.min(9), pick(sequence, b"\n 0159#\0\xff")),
                    _ => {
                        let place = place.min(file.len().saturating_sub(1)).min(8);
                        if let Some(byte) = file.get_mut(place) {
                            *byte = sequence.next() as u8;
                        }
                    }
                }
            }
        }
        let [first, second] = files;
        self.add(kind, &first, &second);
    }
}

/// What may stand in the place of "P4\n5 3\n" and is no such header.
const HEADERS: &[&str] = &[
    // Parts missing.
    "",
    "P",
    "P4",
    "P4\n",
    "P4\n5",
    "P4\n5 ",
    "P4\n5 3",
    "5 3\n",
    "P4\n3\n",
    "P4\n 3\n",
    "P4\n5 \n",
    "P4\n5\n",
    "P4\n\n",
    "P4\n \n",
    "P4 ",
    "4\n5 3\n",
    "P\n5 3\n",
    "\n5 3\n",
    "P45 3\n",
    "P4\n53\n",
    // Carriage returns, tabs and other white space.
    "P4\r5 3\n",
    "P4\n5 3\r",
    "P4\r\n5 3\n",
    "P4\n5 3\r\n",
    "P4\r\n5 3\r\n",
    "P4\n\r5 3\n",
    "P4\n5\r3\n",
    "P4\t5 3\n",
    "P4\n5\t3\n",
    "P4\n5 3\t",
    "P4\n\t5 3\n",
    "P4\n5 \t3\n",
    "P4\n5 3\t\n",
    "P4 5 3\n",
    "P4\n 5 3\n",
    "P4\n5  3\n",
    "P4\n5 3 \n",
    "P4\n5 3 ",
    " P4\n5 3\n",
    "P4 \n5 3\n",
    "\nP4\n5 3\n",
    "P4\n\n5 3\n",
    "P4\n5\n3\n",
    "P4\n5 \n3\n",
    "P4\n5\n 3\n",
    "P4\x0b5 3\n",
    "P4\n5\x0b3\n",
    "P4\n5\x0c3\n",
    "P4\n5 3\x0b",
    "P4\n5 3\x0c",
    "P4  5 3\n",
    "P4 5 3 ",
    "P4\n5 3\0",
    "P4\x005 3\n",
    "P4\n5\x003\n",
    "P 4\n5 3\n",
    // Comments.
    "P4\n# film\n5 3\n",
    "P4 # film\n5 3\n",
    "P4# film\n5 3\n",
    "#\nP4\n5 3\n",
    "P4\n5 # film\n3\n",
    "P4\n5# film\n3\n",
    "P4\n5 3 # film\n",
    "P4\n5 3# film\n",
    "P4\n#\n5 3\n",
    "P4\n5 #\n 3\n",
    "P4\n5 3#\n",
    // Signs, leading zeros and other numbers.
    "P4\n+5 3\n",
    "P4\n-5 3\n",
    "P4\n5 +3\n",
    "P4\n5 -3\n",
    "P4\n-5 -3\n",
    "P4\n05 3\n",
    "P4\n5 03\n",
    "P4\n05 03\n",
    "P4\n00005 3\n",
    "P4\n5 000003\n",
    "P4\n00 3\n",
    "P4\n5 00\n",
    "P4\n5. 3\n",
    "P4\n5.0 3\n",
    "P4\n5e0 3\n",
    "P4\n0x5 3\n",
    "P4\n5 0x3\n",
    "P4\n5,3\n",
    "P4\n5x3\n",
    "P4\n5, 3\n",
    "P4\n5/3\n",
    "P4\n/ 3\n",
    "P4\n: 3\n",
    "P4\n5 :\n",
    "P4\n5 /\n",
    "P4\na b\n",
    "P4\n５ ３\n",
    "P4\nV III\n",
    "P4\n\"5\" 3\n",
    "P4\n5 3 1\n",
    "P4\n5 3 5 3\n",
    "P4\n5_0 3\n",
    // Outside the limits.
    "P4\n0 3\n",
    "P4\n5 0\n",
    "P4\n0 0\n",
    "P4\n16385 3\n",
    "P4\n5 16385\n",
    "P4\n16385 16385\n",
    "P4\n99999 3\n",
    "P4\n5 99999\n",
    "P4\n100000 3\n",
    "P4\n5 100000\n",
    "P4\n16390 3\n",
    "P4\n5 17000\n",
    "P4\n20000 3\n",
    "P4\n5 50000\n",
    "P4\n163841 3\n",
    // Other kinds of files.
    "P1\n5 3\n",
    "P2\n5 3\n",
    "P3\n5 3\n",
    "P5\n5 3\n",
    "P5\n5 3\n1\n",
    "P6\n5 3\n",
    "P7\n5 3\n",
    "p4\n5 3\n",
    "4P\n5 3\n",
    "PP4\n5 3\n",
    "P44\n5 3\n",
    "P04\n5 3\n",
];

/// All fixed pairs, then this many random ones.
pub fn pairs(count: usize, seed: u64) -> Vec<Pair> {
    let mut maker = Maker {
        sequence: Sequence::new(seed),
        pairs: Vec::new(),
    };
    for columns in widths() {
        let rows = 1 + maker.sequence.below(5) as usize;
        maker.sound(Size(columns, rows));
    }
    maker.cuts();
    maker.extra_bytes();
    maker.damaged_headers();
    maker.changed_headers();
    maker.limits();
    maker.unequal_sizes();
    maker.pairs_of_faults();
    maker.first_bytes();
    maker.far_places();
    for _ in 0..count {
        maker.random();
    }
    maker.pairs
}

/// How many pairs there are of each kind, in the order of their first.
pub fn counts(pairs: &[Pair]) -> Vec<(&'static str, usize)> {
    let mut counts: Vec<(&'static str, usize)> = Vec::new();
    for pair in pairs {
        match counts.iter_mut().find(|(kind, _)| *kind == pair.kind) {
            Some((_, count)) => *count += 1,
            None => counts.push((pair.kind, 1)),
        }
    }
    counts
}

/// Writes the pairs as N.1 and N.2, N counted from 1, and the kind of pair N as line
/// N of `kinds`; says how many there are of each kind.
pub fn write(folder: &str, pairs: &[Pair]) -> Result<String, String> {
    let put = |name: String, bytes: &[u8]| {
        let path = Path::new(folder).join(name);
        std::fs::write(&path, bytes).map_err(|e| format!("{}: {e}", path.display()))
    };
    let mut kinds = String::new();
    for (number, pair) in (1..).zip(pairs) {
        put(format!("{number}.1"), &pair.first)?;
        put(format!("{number}.2"), &pair.second)?;
        kinds += &format!("{}\n", pair.kind);
    }
    put("kinds".to_string(), kinds.as_bytes())?;
    let told: Vec<String> = counts(pairs)
        .iter()
        .map(|(kind, count)| format!("  {count} {kind}\n"))
        .collect();
    Ok(format!("{} pairs\n{}", pairs.len(), told.concat()))
}

#[cfg(test)]
mod tests {
    use super::*;
    use crate::overlay::{answer, kind, kinds, Refusal};

    #[test]
    fn every_answer_occurs() {
        let mut counts = kinds();
        for pair in pairs(300, 1) {
            counts[kind(&answer(&pair.first, &pair.second))].1 += 1;
        }
        for (name, count) in counts {
            assert!(count >= 50, "{count} {name}");
        }
    }

    #[test]
    fn a_seed_gives_one_list() {
        let bytes = |seed| {
            let pairs = pairs(50, seed);
            let files = pairs.iter().flat_map(|pair| [&pair.first, &pair.second]);
            files.flatten().copied().collect::<Vec<u8>>()
        };
        assert_eq!(bytes(7), bytes(7));
        assert_ne!(bytes(7), bytes(8));
    }

    /// A kind has the answers that its name says, and no other.
    #[test]
    fn kinds_are_what_they_say() {
        for pair in pairs(200, 3) {
            let answer = answer(&pair.first, &pair.second);
            let pixels = answer.map(|report| {
                let lines = report.lines();
                lines.filter(|line| !line.starts_with("row ")).count()
            });
            let right = match pair.kind {
                "equal" | "only spare bits differ" => pixels == Ok(0),
                "one pixel apart" | "far into the file" => pixels == Ok(1),
                "random" | "spare bits set" | "digits of the sizes" | "random changes" => {
                    pixels.is_ok()
                }
                "every pixel differs" | "long reports" => pixels.is_ok_and(|n| n > 0),
                "bytes after the first film" => pixels == Err(Refusal::BytesAfter(1)),
                "bytes after the second film" => pixels == Err(Refusal::BytesAfter(2)),
                "bytes after both films" => pixels == Err(Refusal::BytesAfter(1)),
                "bad header" | "larger than the largest" => {
                    matches!(pixels, Err(Refusal::BadHeader(_)))
                }
                "bad header in both" => pixels == Err(Refusal::BadHeader(1)),
                "unequal sizes" | "unequal sizes, as many bytes" => {
                    pixels == Err(Refusal::UnequalSizes)
                }
                "first film cut off" | "both cut off" => {
                    matches!(pixels, Err(Refusal::BadHeader(_) | Refusal::ShortData(1)))
                }
                "second film cut off" => {
                    matches!(pixels, Err(Refusal::BadHeader(2) | Refusal::ShortData(2)))
                }
                "the largest, short by a byte" => matches!(pixels, Err(Refusal::ShortData(_))),
                "the largest, and a byte more" => matches!(pixels, Err(Refusal::BytesAfter(_))),
                _ => true,
            };
            let head = String::from_utf8_lossy(&pair.first[..pair.first.len().min(20)]);
            assert!(right, "{}: {pixels:?}, {head:?}", pair.kind);
        }
    }
}
