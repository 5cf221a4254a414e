//! Damage to AIGER files and gate lists, each for one clause of refusals 18, 19, 20 and 33; and changes that are none
//! (0). A damage gives none where it cannot be done.

use crate::aiger_files::{groups, File};
use random::Random;

type OnFile = fn(&mut Random, &mut File) -> Option<()>;
type OnList = fn(&mut Random, &mut Vec<u32>) -> Option<()>;

const MOST_PIN: u32 = 1 << 30;

/// The refusal that is meant, what is done, and how.
pub fn of_files() -> Vec<(u32, &'static str, OnFile)> {
    vec![
        (0, "literals of 0", |_, file| file.lines.iter_mut().try_for_each(|line| set(line, "0\n"))),
        (0, "no bytes behind the gates", |_, file| Some(file.behind.clear())),
        (0, "LF behind the gates", |_, file| Some(file.behind = b"\n".to_vec())),
        (0, "a cut difference behind the gates", |_, file| Some(file.behind = vec![128])),
        (18, "no bytes", |_, file| cut_all(file)),
        (18, "another mark", |random, file| {
            let mark = random.pick(&["aag ", "AIG ", "ai", " aig ", "aig", "aig\t", "aig  ", "aigx "]);
            set(&mut file.mark, mark)
        }),
        (18, "a blank more", |random, file| {
            let number = random.below(5);
            file.numbers[number].push(' ');
            Some(())
        }),
        (18, "a blank before LF", |_, file| replace(&mut file.numbers[4], "\n", " \n")),
        (18, "CR before LF", |_, file| replace(&mut file.numbers[4], "\n", "\r\n")),
        (18, "another byte for a blank", |random, file| {
            let other = random.pick(&["\t", "\n", "", ",", "\0", "  "]);
            replace(&mut file.numbers[random.below(4)], " ", other)
        }),
        (18, "another byte for the header's LF", |random, file| {
            let other = random.pick(&["\r", "\0", "", "\t"]);
            replace(&mut file.numbers[4], "\n", other)
        }),
        (18, "four numbers", |_, file| {
            file.numbers[3] = file.numbers[3].replace(' ', "\n");
            Some(file.numbers.truncate(4))
        }),
        (18, "a sixth number", |random, file| {
            let numbers = random.pick(&[" 0\n", " 1\n", " 0 0\n"]);
            replace(&mut file.numbers[4], "\n", numbers)
        }),
        (18, "a leading zero", |random, file| {
            let piece = any_piece(random, file);
            Some(piece.insert(0, '0'))
        }),
        (18, "a sign", |random, file| {
            let sign = random.pick(&['+', '-']);
            let piece = any_piece(random, file);
            Some(piece.insert(0, sign))
        }),
        (18, "no digit", |random, file| {
            let piece = any_piece(random, file);
            let end = piece.len() - 1;
            Some(drop(piece.drain(..end)))
        }),
        (18, "a letter among the digits", |random, file| {
            let letter = random.pick(&['a', '/', ':', 'e', '.', '\u{0}']);
            let piece = any_piece(random, file);
            let place = piece.len() - 1;
            Some(piece.insert(place, letter))
        }),
        (18, "M one more than the sum", |_, file| add(file, 0, 1)),
        (18, "M one less than the sum", |_, file| {
            let most = file.number(0).checked_sub(1)?;
            Some(file.set_number(0, most.into()))
        }),
        (18, "M above 2^30", |random, file| {
            let more = u128::from(MOST_PIN) + 1 - u128::from(file.number(0)) + random.below(3) as u128;
            add(file, 0, more)?;
            add(file, 1, more)
        }),
        (18, "2^32 or 2^64 more inputs", |random, file| {
            let more = 1 << random.pick(&[32, 64]);
            add(file, 0, more)?;
            add(file, 1, more)
        }),
        (18, "2^32 or 2^64 more in M alone", |random, file| add(file, 0, 1 << random.pick(&[32, 64]))),
        (18, "inputs and latches pass 2^64", |_, file| {
            let more = 1 << 40;
            add(file, 1, more)?;
            add(file, 2, (1 << 64) - more)
        }),
        (18, "2^32, 2^64 or 2^128 more outputs", |random, file| match random.below(3) {
            0 => Some(file.numbers[3] = "340282366920938463463374607431768211456 ".to_string()),
            _ => add(file, 3, 1 << random.pick(&[32, 64])),
        }),
        (18, "a literal above 2M + 1", |random, file| {
            let above = 2 * file.number(0) + 2 + random.pick(&[0, 0, 1, 1 << 32, u64::MAX >> 2]);
            set(any_line(random, file)?, &format!("{}\n", above))
        }),
        (18, "a literal of 2^32 or 2^64 more", |random, file| {
            let line = any_line(random, file)?;
            let more: u128 = 1 << random.pick(&[32, 64]);
            let literal: u128 = line.trim_end().parse().expect("a number");
            set(line, &format!("{}\n", literal + more))
        }),
        (18, "two literals on a line", |random, file| replace(any_line(random, file)?, "\n", " 0\n")),
        (18, "a blank on a line", |random, file| replace(any_line(random, file)?, "\n", " \n")),
        (18, "CR on a line", |random, file| replace(any_line(random, file)?, "\n", "\r\n")),
        (18, "an empty line", |random, file| set(any_line(random, file)?, "\n")),
        (18, "a line without LF", |random, file| replace(any_line(random, file)?, "\n", "")),
        (18, "a line less than the header says", |_, file| file.lines.pop().map(drop)),
        (18, "cut before the gates", |random, file| {
            let lines = file.lines.concat();
            let header = file.numbers.concat();
            let all = format!("{}{}{}", file.mark, header, lines);
            cut_all(file)?;
            file.mark = all[..random.below(all.len())].to_string();
            Some(())
        }),
        (18, "cut in the last line", |random, file| {
            let line = file.lines.last_mut()?;
            line.truncate(random.below(line.len()));
            cut_from(file, 0)
        }),
        (19, "a first difference of 0", |random, file| {
            let gate = any_gate(random, file)?;
            Some(file.differences[2 * gate] = vec![0])
        }),
        (19, "a first difference above 2v", |random, file| {
            let gate = any_gate(random, file)?;
            let above = file.literal(gate) + 1 + random.pick(&[0, 0, 1, 1 << 31]);
            Some(file.differences[2 * gate] = groups(above, 0))
        }),
        (19, "a second difference above the fan-in", |random, file| {
            let gate = any_gate(random, file)?;
            let above = file.first(gate) + 1 + random.pick(&[0, 0, 1, 1 << 31]);
            Some(file.differences[2 * gate + 1] = groups(above, 0))
        }),
        (19, "a difference of 2^32 or more besides", |random, file| {
            let place = any_difference(random, file)?;
            let number = 1 << random.between(32, 34) | file.literal(0);
            Some(file.differences[place] = groups(number, 0))
        }),
        (19, "not the shortest form", |random, file| {
            let place = any_difference(random, file)?;
            let difference = &mut file.differences[place];
            let number =
                difference.iter().rev().fold(0, |number, &group| number << 7 | u64::from(group & 127));
            let spare = 5usize.checked_sub(difference.len()).filter(|&spare| spare > 0)?;
            Some(*difference = groups(number, random.between(1, spare)))
        }),
        (19, "a fifth byte not the last", |random, file| {
            let place = any_difference(random, file)?;
            Some(file.differences[place] = groups(random.next() >> random.between(0, 28), 0))
        }),
        (19, "a fifth byte not the last, then the end", |random, file| {
            let place = any_difference(random, file)?;
            file.differences[place] = vec![random.between(128, 255) as u8; 5];
            cut_from(file, place + 1)
        }),
        (19, "a first one out of range, then the end", |random, file| {
            let gate = any_gate(random, file)?;
            file.differences[2 * gate] =
                if random.chance(2) { vec![0] } else { groups(file.literal(gate) + 1, 0) };
            cut_from(file, 2 * gate + 1)
        }),
        (20, "cut between gates", |random, file| {
            let gate = any_gate(random, file)?;
            cut_from(file, 2 * gate)
        }),
        (20, "cut between a gate's differences", |random, file| {
            let gate = any_gate(random, file)?;
            cut_from(file, 2 * gate + 1)
        }),
        (20, "cut in a difference", |random, file| {
            let place = any_difference(random, file)?;
            cut_from(file, place + 1)?;
            let difference = &mut file.differences[place];
            let shorter = random.between(1, difference.len());
            difference.truncate(shorter - 1);
            Some(())
        }),
        (20, "cut in a difference too large already", |random, file| {
            let place = any_difference(random, file)?;
            file.differences[place] = vec![255; random.between(1, 4)];
            cut_from(file, place + 1)
        }),
        (20, "cut in a difference not the shortest", |random, file| {
            let place = any_difference(random, file)?;
            file.differences[place] = vec![128; random.between(1, 4)];
            cut_from(file, place + 1)
        }),
        (20, "a gate more in the header", |_, file| {
            file.behind.clear();
            add(file, 0, 1)?;
            add(file, 4, 1)
        }),
        (20, "as many gates as there can be", |_, file| {
            file.behind.clear();
            let more = u128::from(MOST_PIN) - u128::from(file.number(0));
            add(file, 0, more)?;
            add(file, 4, more)
        }),
    ]
}

pub fn of_lists() -> Vec<(u32, &'static str, OnList)> {
    vec![
        (0, "equal fan-ins", |random, list| on_gate(random, list, |gate| gate[2] = gate[1])),
        (0, "constant fan-ins", |random, list| on_gate(random, list, |gate| (gate[1], gate[2]) = (1, 0))),
        (0, "the largest first fan-in", |random, list| {
            on_gate(random, list, |gate| gate[1] = 2 * gate[0] - 1)
        }),
        (33, "a gate that is cut", |random, list| {
            list.len().checked_sub(1)?;
            Some(list.truncate(list.len() - random.between(1, 2)))
        }),
        (33, "a word more", |random, list| Some(list.push(random.pick(&[0, 1, u32::MAX])))),
        (33, "pin 0", |_, list| {
            let gate = list.get_mut(..3)?;
            Some(gate.fill(0))
        }),
        (33, "pin 0 before the others", |_, list| Some(drop(list.splice(..0, [0, 0, 0])))),
        (33, "a gap", |random, list| {
            let gates = list.len() / 3;
            let from = 3 * random.between(1, gates.checked_sub(1).filter(|&last| last > 0)?);
            list[from..].iter_mut().step_by(3).try_for_each(|pin| Some(*pin = pin.checked_add(1)?))
        }),
        (33, "a gate twice", |random, list| {
            let from = 3 * any_list_gate(random, list)?;
            let gate = [list[from], list[from + 1], list[from + 2]];
            Some(drop(list.splice(from..from, gate)))
        }),
        (33, "two gates exchanged", |random, list| {
            let from = 3 * random.below((list.len() / 3).checked_sub(1).filter(|&last| last > 0)?);
            (0..3).try_for_each(|word| Some(list.swap(from + word, from + 3 + word)))
        }),
        (33, "a fan-in that is not below", |random, list| {
            let more = random.below(2) as u32;
            on_gate(random, list, |gate| gate[1] = 2 * gate[0] + more)
        }),
        (33, "a fan-in past the pins", |random, list| {
            let word = random.pick(&[u32::MAX, u32::MAX - 1, 1 << 31]);
            on_gate(random, list, |gate| gate[1] = word)
        }),
        (33, "a second fan-in that is larger", |random, list| {
            let more = random.pick(&[1, 1, 2, 1000]);
            on_gate(random, list, |gate| gate[2] = gate[1] + more)
        }),
        (33, "a second fan-in past the pins", |random, list| {
            let word = random.pick(&[u32::MAX, 1 << 31]);
            on_gate(random, list, |gate| gate[2] = word)
        }),
        (33, "a pin above 2^30", |random, list| {
            let first = MOST_PIN + 2 - (list.len() as u32 / 3);
            list.get(0)?;
            let more = random.below(list.len() / 3) as u32;
            renumber(list, first + more)
        }),
        (33, "pins of 2^31 more", |_, list| {
            let first = *list.get(0)? | 1 << 31;
            renumber(list, first)
        }),
        (33, "pins that pass 2^32", |_, list| {
            list.get(3)?;
            let first = u32::MAX - (list.len() as u32 / 3 - 2);
            renumber(list, first)
        }),
    ]
}

fn set(piece: &mut String, text: &str) -> Option<()> {
    *piece = text.to_string();
    Some(())
}

fn replace(piece: &mut String, from: &str, to: &str) -> Option<()> {
    *piece = piece.replace(from, to);
    Some(())
}

/// Adds to a number of the header.
fn add(file: &mut File, index: usize, more: u128) -> Option<()> {
    let number = u128::from(file.number(index));
    file.set_number(index, number + more);
    Some(())
}

/// A number of the header or a line.
fn any_piece<'a>(random: &mut Random, file: &'a mut File) -> &'a mut String {
    let pieces = file.numbers.iter_mut().chain(&mut file.lines);
    let place = random.below(pieces.size_hint().0);
    file.numbers.iter_mut().chain(&mut file.lines).nth(place).expect("one of them")
}

fn any_line<'a>(random: &mut Random, file: &'a mut File) -> Option<&'a mut String> {
    let line = random.below(file.lines.len().max(1));
    file.lines.get_mut(line)
}

fn any_gate(random: &mut Random, file: &File) -> Option<usize> {
    let gates = file.differences.len() / 2;
    (gates > 0).then(|| random.below(gates))
}

fn any_difference(random: &mut Random, file: &File) -> Option<usize> {
    any_gate(random, file).map(|gate| 2 * gate + random.below(2))
}

/// Nothing is left from this difference on.
fn cut_from(file: &mut File, difference: usize) -> Option<()> {
    file.differences.truncate(difference);
    file.behind.clear();
    Some(())
}

/// No bytes are left.
fn cut_all(file: &mut File) -> Option<()> {
    file.mark.clear();
    file.numbers.clear();
    file.lines.clear();
    cut_from(file, 0)
}

fn any_list_gate(random: &mut Random, list: &[u32]) -> Option<usize> {
    let gates = list.len() / 3;
    (gates > 0).then(|| random.below(gates))
}

fn on_gate(random: &mut Random, list: &mut [u32], change: impl FnOnce(&mut [u32])) -> Option<()> {
    let gate = any_list_gate(random, list)?;
    change(&mut list[3 * gate..3 * gate + 3]);
    Some(())
}

/// The gates' pins from a first one on.
fn renumber(list: &mut [u32], first: u32) -> Option<()> {
    for (gate, pin) in list.iter_mut().step_by(3).enumerate() {
        *pin = first.wrapping_add(gate as u32);
    }
    Some(())
}
