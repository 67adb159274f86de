//! What crates/ox_speed does to pools of runes, in plain Rust: a map for each output, and one of
//! what all outputs are owed.
use std::collections::BTreeMap;

type Id = (u64, u32);

#[derive(Clone, Copy)]
struct Edict {
    id: Id,
    amount: u128,
    output: usize,
}

// as many edicts or outputs as a block of 320 KB has
const MANY: u32 = 20_000;

fn id_of(turn: u32) -> Id {
    (840_000, turn.wrapping_mul(0x9e37_79b1))
}

fn pool_of(runes: u32) -> BTreeMap<Id, u128> {
    let mut pool = BTreeMap::new();
    for turn in 0..runes {
        let id = id_of(turn);
        if pool.get(&id).is_none() {
            pool.insert(id, 10_000_000_000);
        }
    }
    pool
}

fn deal(mut left: BTreeMap<Id, u128>, edicts: &[Edict], outputs: usize) -> Vec<Vec<(Id, u128)>> {
    let mut hands = vec![BTreeMap::<Id, u128>::new(); outputs];
    let mut owed = BTreeMap::<Id, u128>::new();
    for edict in edicts {
        let Some(rest) = left.get_mut(&edict.id) else {
            continue;
        };
        if edict.output >= outputs {
            match edict.amount.checked_mul(outputs as u128) {
                Some(sum) if 0 < sum && sum <= *rest => {
                    *rest -= sum;
                    *owed.entry(edict.id).or_insert(0) += edict.amount;
                    continue;
                }
                _ => {}
            }
        }
        let places = if edict.output < outputs {
            edict.output..edict.output + 1
        } else {
            0..outputs
        };
        let count = places.len() as u128;
        let (share, mut extra) = match edict.amount {
            0 => (*rest / count, *rest % count),
            _ => (0, 0),
        };
        for place in places {
            let part = if edict.amount == 0 {
                let one = u128::from(extra > 0);
                extra -= one;
                share + one
            } else {
                edict.amount.min(*rest)
            };
            *rest -= part;
            if part > 0 {
                *hands[place].entry(edict.id).or_insert(0) += part;
            }
        }
    }
    for (id, amount) in owed {
        for hand in &mut hands {
            *hand.entry(id).or_insert(0) += amount;
        }
    }
    for (id, amount) in left {
        if amount > 0 {
            *hands[0].entry(id).or_insert(0) += amount;
        }
    }
    hands.into_iter().map(|hand| hand.into_iter().collect()).collect()
}

fn main() {
    let words: Vec<String> = std::env::args().collect();
    let kind = words[1].as_str();
    let count: u32 = words[2].parse().expect("a number");
    let times: u32 = words[3].parse().expect("a number");
    let (runes, edicts, outputs) = match kind {
        "pool" => (count, 0, 10),
        "each" => (1, count, MANY),
        "outputs" => (1, MANY, count),
        _ => (1_000, count, 10),
    };
    let edicts: Vec<Edict> = (0..edicts)
        .map(|turn| Edict {
            id: id_of(turn % runes),
            amount: 3,
            output: if kind == "one" { turn % 10 } else { outputs } as usize,
        })
        .collect();
    let mut last = 0;
    for _ in 0..times {
        last = deal(pool_of(runes), &edicts, outputs as usize)[0].len();
    }
    println!("{last} runes at the first output");
}
