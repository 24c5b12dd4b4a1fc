//! The difference of two dumps: every question and the walk give the same on both sides, of streams that differ in every kind of place.

use compare::differences::{some_indices, some_offset, some_pair, Change, Drawn, REFUSALS};
use compare::numbers::{KNOWN_PACKETS, UNKNOWN_OPCODES};
use compare::random::Random;
use std::collections::BTreeMap;
use std::ops::Range;
use zelezmut::diff::{self, Difference, Which};
use zelezmut::guest::{self, PacketByte, PacketField, PacketLayout, PACKET_LAYOUTS};

/// The error's number, and the stream's.
type Refusal = (u32, u32);

/// A class's number and the offsets, for each pair.
type Walk = Vec<(u32, Vec<u64>)>;

fn proved_refusal(refused: diff::Refused) -> Refusal {
    (refused.error.number(), refused.stream.number())
}

fn plain_refusal(refused: plain::diff::Refused) -> Refusal {
    (refused.error, refused.stream as u32)
}

fn plain_class(class: plain::diff::Class) -> u32 {
    class as u32
}

fn proved<'s>(first: &'s [u8], second: &'s [u8]) -> Result<Difference<'s>, Refusal> {
    let made = Difference::of(first, second).map_err(proved_refusal);
    let checked = diff::check(first, second).map_err(proved_refusal);
    assert_eq!(made.as_ref().map(drop), checked.as_ref().map(drop));
    made
}

fn plain_walk(first: &[u8], second: &[u8]) -> Result<Walk, Refusal> {
    let pairs = plain::diff::pairs(first, second).map_err(plain_refusal)?;
    let told = |pair: plain::diff::Pair<'_>| {
        let offsets = pair.offsets(0).collect();
        (plain_class(pair.class()), offsets)
    };
    Ok(pairs.map(told).collect())
}

/// Walks, and sees that packets follow one another from the stream's header to its end, each with its own size.
fn proved_walk(difference: &Difference<'_>, drawn: &Drawn) -> Walk {
    let (mut walk, mut ends) = (Vec::new(), [24, 24]);
    for (pair, index) in difference.pairs().zip(0..) {
        assert_eq!(pair.index, index);
        let follows = |end: &mut usize, range: &Option<Range<usize>>, which| {
            if let Some(range) = range {
                assert_eq!(range.start, *end);
                let packet = pair.packet(which).expect("its bytes");
                assert_eq!(packet[4..8], (range.len() as u32).to_le_bytes());
                *end = range.end;
            }
        };
        follows(&mut ends[0], &pair.first, Which::First);
        follows(&mut ends[1], &pair.second, Which::Second);
        walk.push((pair.class.number(), pair.offsets().collect()));
    }
    for (end, stream) in ends.into_iter().zip([&drawn.first, &drawn.second]) {
        assert_eq!(stream[8..12], (end as u32).to_le_bytes());
    }
    walk
}

/// The questions by index and offset, of both programs; the pair's own offsets are asked for one by one.
fn questions_are_equal(random: &mut Random, difference: &Difference<'_>, drawn: &Drawn) {
    let Drawn { first, second, .. } = drawn;
    let pairs = difference.pairs().count() as u64;
    for index in some_indices(random, pairs) {
        let class = plain::diff::class(first, second, index).map(plain_class);
        assert_eq!(Ok(difference.class(index).number()), class);
        let mut froms = vec![0];
        froms.extend([(); 3].map(|()| some_offset(random)));
        while let Some(from) = froms.pop() {
            let next = difference.next(index, from);
            assert_eq!(Ok(next), plain::diff::next(first, second, index, from));
            if froms.is_empty() {
                froms.extend(next.and_then(|offset| offset.checked_add(1)));
            }
        }
    }
}

/// What was met, so that the pairs cannot become too few of a kind.
#[derive(Default)]
struct Met {
    changes: BTreeMap<Change, u32>,
    classes: [u32; 6],
    refusals: BTreeMap<Refusal, u32>,
    /// The first is refused for a packet, and the second, by itself, for its header.
    lower_second: u32,
    bytes: BTreeMap<String, u32>,
}

impl Met {
    fn refused(&mut self, refusal: Refusal, drawn: &Drawn) {
        *self.refusals.entry(refusal).or_insert(0) += 1;
        let alone = diff::check(&drawn.second, &drawn.second).map_err(|refused| refused.error);
        let header = Err(zelezmut::DeviceError::BadStream);
        self.lower_second += u32::from(refusal == (REFUSALS[1], 1) && alone == header);
    }

    fn walked(&mut self, difference: &Difference<'_>) {
        for pair in difference.pairs() {
            self.classes[pair.class.number() as usize] += 1;
            let packet = pair.packet(Which::First).unwrap_or(&[0; 8]);
            let opcode = u32::from_le_bytes([packet[0], packet[1], packet[2], packet[3]]);
            for offset in pair.offsets() {
                let kind = match PacketByte::at(opcode, offset) {
                    PacketByte::Field(_) => "field".to_string(),
                    other => other.to_string(),
                };
                *self.bytes.entry(kind).or_insert(0) += 1;
            }
        }
    }
}

/// Holds one pair of streams against both programs.
fn compare(random: &mut Random, drawn: &Drawn, met: &mut Met) {
    let Drawn { first, second, .. } = drawn;
    *met.changes.entry(drawn.change).or_insert(0) += 1;
    let expected = plain_walk(first, second);
    let difference = match proved(first, second) {
        Ok(difference) => difference,
        Err(refusal) => {
            assert_eq!(Err(refusal), expected, "{:?}", drawn);
            met.refused(refusal, drawn);
            return;
        }
    };
    assert_eq!(Ok(proved_walk(&difference, drawn)), expected, "{:?}", drawn);
    let parts = difference.parts();
    assert_eq!(
        Ok(parts),
        plain::diff::parts(first, second).map_err(plain_refusal)
    );
    if drawn.change.leaves_all_equal() {
        assert_eq!(parts, None, "{:?}", drawn);
    }
    if let Some((index, offset)) = drawn.only {
        assert_eq!(parts, Some(index), "{:?}", drawn);
        let pair = difference.pairs().nth(index as usize).expect("a pair");
        assert_eq!(pair.offsets().collect::<Vec<u64>>(), [offset]);
        let equal = difference
            .pairs()
            .filter(|pair| pair.class == diff::Class::Equal);
        assert_eq!(equal.count() + 1, difference.pairs().count());
    }
    questions_are_equal(random, &difference, drawn);
    met.walked(&difference);
}

#[test]
fn differences_of_random_streams_are_equal() {
    let mut random = Random::new(80);
    let mut met = Met::default();
    for _ in 0..40_000 {
        let drawn = some_pair(&mut random);
        compare(&mut random, &drawn, &mut met);
    }
    for change in Change::ALL {
        let times = met.changes.get(&change).copied().unwrap_or(0);
        assert!(times > 800, "{:?} only {} times", change, times);
    }
    let (neither, others) = met.classes.split_last().expect("six classes");
    assert!(others.iter().all(|&times| times > 800), "{:?}", met.classes);
    assert_eq!(*neither, 0);
    for refusal in REFUSALS.iter().flat_map(|&error| [(error, 1), (error, 2)]) {
        let times = met.refusals.get(&refusal).copied().unwrap_or(0);
        assert!(times > 400, "{:?} only {} times", refusal, times);
    }
    assert!(met.lower_second > 200, "{}", met.lower_second);
    for kind in ["header", "field", "unnamed", "appended", "payload"] {
        let times = met.bytes.get(kind).copied().unwrap_or(0);
        assert!(times > 800, "{} only {} times", kind, times);
    }
}

/// Bytes of any kind, most of them no stream at all, in slices of any length.
#[test]
fn refusals_of_any_bytes_are_equal() {
    let mut random = Random::new(81);
    let mut met = Met::default();
    for _ in 0..20_000 {
        let mut drawn = some_pair(&mut random);
        for stream in [&mut drawn.first, &mut drawn.second] {
            for _ in 0..random.within(0..=2) {
                if !stream.is_empty() {
                    let at = random.edgy(0..=stream.len() as u64 - 1) as usize;
                    stream[at] = random.word() as u8;
                }
            }
        }
        (drawn.change, drawn.only) = (Change::Others, None);
        compare(&mut random, &drawn, &mut met);
    }
    let refused: u32 = met.refusals.values().sum();
    assert!((2_000..18_000).contains(&refused), "{}", refused);
}

/// The longest streams of the programs, of the shortest packets, and of one packet: the walk alone.
#[test]
fn long_streams_are_walked_to_their_end() {
    const SIZE: u32 = 65_536 - 24;
    let short = |opcode| guest::Packet::Unknown { opcode, size: 8 }.to_bytes();
    let long = |bytes: u8| {
        let mut packet = guest::Packet::Unknown {
            opcode: 9,
            size: SIZE,
        }
        .to_bytes();
        packet[8..].fill(bytes);
        packet
    };
    let many = |last: u32| -> Vec<Vec<u8>> {
        let count = SIZE as usize / 8;
        let opcode = |i| if i + 1 == count { last } else { 7 };
        (0..count).map(|i| short(opcode(i))).collect()
    };
    let mut random = Random::new(82);
    for (one, other, parts, offsets) in [
        (many(7), many(7), None, 0),
        (many(7), many(8), Some(8_188), 0),
        (vec![long(0)], vec![long(0)], None, 0),
        (vec![long(0)], vec![long(1)], Some(0), 65_504),
        (vec![short(9)], vec![long(1)], Some(0), 65_504 + 2),
    ] {
        let drawn = Drawn {
            first: guest::stream_of(&one),
            second: guest::stream_of(&other),
            change: Change::Others,
            only: None,
        };
        let difference = proved(&drawn.first, &drawn.second).expect("good streams");
        assert_eq!(difference.parts(), parts);
        let walk = proved_walk(&difference, &drawn);
        assert_eq!(
            walk.iter().map(|(_, found)| found.len()).sum::<usize>(),
            offsets
        );
        assert_eq!(Ok(walk), plain_walk(&drawn.first, &drawn.second));
        let far = some_offset(&mut random).max(SIZE.into());
        assert_eq!(difference.next(0, far), None);
    }
}

/// A field's number, as a dump prints it.
fn printed(packet: &[u8], field: &PacketField, signed: bool) -> String {
    let (start, width) = (field.offset as usize, field.width as usize);
    let mut bytes = [0; 8];
    bytes[..width].copy_from_slice(&packet[start..start + width]);
    let value = u64::from_le_bytes(bytes);
    if signed {
        format!("{}={}", field.name, value as u32 as i32)
    } else {
        format!("{}={}", field.name, value)
    }
}

/// Names and places of fields, held against the plain program's dump and its list of fields.
#[test]
fn the_names_are_those_of_the_dump() {
    let mut random = Random::new(83);
    let rows = PACKET_LAYOUTS.map(|layout| (layout.opcode, layout.size));
    assert_eq!(rows, KNOWN_PACKETS);
    for layout in &PACKET_LAYOUTS {
        let places = plain::listed::fields(plain::listed::Layout::Packet(layout.opcode));
        let place = |field: &PacketField| (field.offset as usize, field.width as usize);
        assert_eq!(layout.fields.iter().map(place).collect::<Vec<_>>(), places);
        for _ in 0..20 {
            let mut packet = vec![0; layout.size as usize];
            random.noise(&mut packet);
            packet[..4].copy_from_slice(&layout.opcode.to_le_bytes());
            packet[4..8].copy_from_slice(&layout.size.to_le_bytes());
            let stream = guest::stream_of(&[packet.clone()]);
            let fields = layout.fields.iter();
            let signed = layout.name == "Scissor";
            let fields: Vec<String> = fields
                .map(|field| printed(&packet, field, signed))
                .collect();
            let (name, size) = (layout.name, layout.size);
            let line = format!(
                "0x00000018 {} size_bytes={} {}\n",
                name,
                size,
                fields.join(" ")
            );
            assert_eq!(plain::dump::dump(&stream, false), line);
        }
    }
    for opcode in UNKNOWN_OPCODES {
        assert_eq!(PacketLayout::of(opcode), None);
        assert!(plain::listed::fields(plain::listed::Layout::Packet(opcode)).is_empty());
    }
}
