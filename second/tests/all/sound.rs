//! Soundness said again, clause by clause and in wider numbers, to judge damaged traces by.

use second::calls::{State, SLOT};
use second::rule::Kind;

pub fn is_sound(state: State, room: &[i64]) -> bool {
    let late = state.kind == Kind::Late;
    let wide = |number: u64| i128::from(number);
    let in_bounds = 1 <= state.base && state.base <= 512;
    let gaps_in_bounds = if late {
        1 <= state.gaps && state.gaps <= 256
    } else {
        state.gaps == 0
    };
    let edition_known = [1, 2].contains(&state.edition);
    if !in_bounds || !gaps_in_bounds || !edition_known {
        return false;
    }
    let needed = wide(state.base) + wide(state.gaps) + 1;
    let long_enough = room.len() as i128 >= needed * SLOT as i128;
    if !long_enough || wide(state.used) > needed {
        return false;
    }
    let mut end: i128 = 0;
    let (mut runs, mut readings): (i128, i128) = (0, 0);
    for index in 0..needed as usize {
        let slot: Vec<i128> = (0..SLOT)
            .map(|field| i128::from(room[index * SLOT + field]))
            .collect();
        if index as u64 >= state.used {
            if slot.iter().any(|&number| number != 0) {
                return false;
            }
            continue;
        }
        let (start, count, least, largest) = (slot[0], slot[1], slot[2], slot[3]);
        let ticks_fit = start >= 0 && count >= 1 && start + count <= 16_777_216;
        let readings_fit = -(1 << 31) <= least && least <= largest && largest < 1 << 31;
        let one_reading_is_one_value = count != 1 || least == largest;
        let follows = if late { start >= end } else { start == end };
        if !(ticks_fit && readings_fit && one_reading_is_one_value && follows) {
            return false;
        }
        if index == 0 || start > end {
            runs += 1;
        }
        readings += count;
        end = start + count;
    }
    let limit = wide(state.base) + if late { runs } else { 0 };
    wide(state.used) <= limit
        && (!late || runs <= wide(state.gaps))
        && wide(state.runs) == runs
        && wide(state.readings) == readings
}
