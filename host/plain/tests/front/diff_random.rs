//! Random pairs of streams against a model that keeps packets in lists.

use crate::hostile::Random;
use crate::scene::*;
use plain::diff::{class, next, pairs, parts, report, Class};

type List = Vec<Vec<u8>>;

fn model_class(first: &[Vec<u8>], second: &[Vec<u8>], index: usize) -> Class {
    match (first.get(index), second.get(index)) {
        (None, None) => Class::Neither,
        (Some(_), None) => Class::OnlyFirst,
        (None, Some(_)) => Class::OnlySecond,
        (Some(a), Some(b)) if a == b => Class::Equal,
        (Some(a), Some(b)) if a[..4] == b[..4] => Class::SameOpcode,
        _ => Class::OtherOpcode,
    }
}

fn model_offsets(first: &[Vec<u8>], second: &[Vec<u8>], index: usize) -> Vec<u64> {
    if model_class(first, second, index) != Class::SameOpcode {
        return Vec::new();
    }
    let (a, b) = (&first[index], &second[index]);
    let longer = a.len().max(b.len());
    (0..longer)
        .filter(|at| a.get(*at) != b.get(*at))
        .map(|at| at as u64)
        .collect()
}

fn model_line(first: &[Vec<u8>], second: &[Vec<u8>], index: usize) -> String {
    let class = match model_class(first, second, index) {
        Class::Equal => String::from("equal"),
        Class::SameOpcode => {
            let offsets = model_offsets(first, second, index);
            let texts: Vec<String> = offsets.iter().map(u64::to_string).collect();
            format!("same_opcode offsets={}", texts.join(","))
        }
        Class::OtherOpcode => String::from("other_opcode"),
        Class::OnlyFirst => String::from("only_first"),
        Class::OnlySecond => String::from("only_second"),
        Class::Neither => unreachable!(),
    };
    format!("{} {}\n", index, class)
}

/// A list of packets, and one that is much like it.
fn lists(random: &mut Random) -> (List, List) {
    let first: List = (0..random.below(6))
        .map(|_| {
            let opcode = [7, 8, 258, 1810][random.below(4) as usize];
            packet(opcode, 16 + 4 * random.below(4) as u32)
        })
        .collect();
    let mut second = first.clone();
    for packet in &mut second {
        match random.below(6) {
            0 => *packet = grown(packet.clone(), &[0xDD; 8]),
            1 => packet[0] ^= 0x0F,
            2..=3 => {
                for _ in 0..random.below(4) {
                    let at = 8 + random.below(packet.len() as u64 - 8) as usize;
                    packet[at] = random.below(3) as u8;
                }
            }
            _ => (),
        }
    }
    second.truncate(random.below(9) as usize);
    (first, second)
}

/// Asserts that every answer is the model's.
fn compare(first: &[Vec<u8>], second: &[Vec<u8>]) {
    let (a, b) = (stream(first), stream(second));
    let count = first.len().max(second.len());
    let parting = (0..count).find(|i| model_class(first, second, *i) != Class::Equal);
    assert_eq!(parts(&a, &b), Ok(parting.map(|index| index as u64)));
    let mut text = match parting {
        Some(index) => format!("first={}\n", index),
        None => String::from("first=none\n"),
    };
    for index in 0..count + 2 {
        let expected = model_class(first, second, index);
        assert_eq!(class(&a, &b, index as u64), Ok(expected));
        let offsets = model_offsets(first, second, index);
        for from in 0..48 {
            let expected = offsets.iter().copied().find(|at| *at >= from);
            assert_eq!(next(&a, &b, index as u64, from), Ok(expected));
        }
        if index < count {
            text += &model_line(first, second, index);
        }
    }
    assert_eq!(report(&a, &b), text);
    let walked: Vec<Class> = pairs(&a, &b)
        .map(|pairs| pairs.map(|pair| pair.class()).collect())
        .unwrap_or_default();
    let expected: Vec<Class> = (0..count).map(|i| model_class(first, second, i)).collect();
    assert_eq!(walked, expected);
}

#[test]
fn every_answer_is_the_models() {
    let mut random = Random(41);
    for _ in 0..3000 {
        let (first, second) = lists(&mut random);
        compare(&first, &second);
        compare(&second, &first);
    }
}
