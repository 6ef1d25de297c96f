//! Texts: as amounts read and written, and as paths, prefixes and names.

use crate::{in_threads, Shared, Wanted};
use model::amount::{read, write_into, Cap};
use model::desk::{is_name, is_path, is_prefix};
use model::random::{amount_text, path_text, Random};
use pailorchard::{read_amount, write_amount, Amount};
use std::collections::BTreeMap;

/// How many texts are made of one seed.
const OF_ONE: u64 = 1_000;

/// How often each answer was given, by what was asked.
type Answers = BTreeMap<(&'static str, u32), u64>;

fn amount(cap: Cap) -> Amount {
    match cap {
        Cap::Unlimited => Amount::Unlimited,
        Cap::Bytes(n) => Amount::Bytes(n),
    }
}

/// One amount read, and one written to a buffer that is long enough or not.
fn amounts(r: &mut Random, answers: &mut Answers) -> Result<(), String> {
    let text = amount_text(r);
    let model = read(&text);
    let library = read_amount(&text).map_err(|refusal| refusal.0);
    if model.map(amount) != library {
        return Err(format!("amount {text:?}: model {model:?}, library {library:?}"));
    }
    *answers.entry(("amount read", model.err().unwrap_or(0))).or_default() += 1;
    let most = 1u64 << r.between(0, 40);
    let any = Cap::Bytes(r.below(most) << *r.pick(&[0, 0, 10, 20, 30]));
    let cap = model.ok().filter(|_| r.chance(50)).unwrap_or(any);
    let (mut one, mut other) = ([0xA5; 16], [0xA5; 16]);
    let room = r.index(17);
    let model = write_into(cap, &mut one[..room]);
    let library = write_amount(amount(cap), &mut other[..room]).map_err(|refusal| refusal.0);
    if (model, one) != (library, other) {
        return Err(format!("write {cap:?} to {room} bytes: model {model:?}, library {library:?}"));
    }
    *answers.entry(("amount written", model.err().unwrap_or(0))).or_default() += 1;
    Ok(())
}

/// One text as a path, a prefix and a name.
fn text(r: &mut Random, answers: &mut Answers) -> Result<(), String> {
    let text = path_text(r);
    let model = [is_path(&text), is_prefix(&text), is_name(&text)];
    let library =
        [pailorchard::is_path(&text), pailorchard::is_prefix(&text), pailorchard::is_name(&text)];
    if model != library {
        return Err(format!("text {text:?}: model {model:?}, library {library:?}"));
    }
    for (asked, is_so) in ["path", "prefix", "name"].into_iter().zip(model) {
        *answers.entry((asked, u32::from(!is_so))).or_default() += 1;
    }
    Ok(())
}

pub fn compare(wanted: &Wanted) -> Result<(), String> {
    let shared = Shared::default();
    let all = in_threads(wanted.threads, &shared, || {
        let mut answers = Answers::new();
        while let Some(next) = shared.take().filter(|n| n * OF_ONE < wanted.texts) {
            let seed = wanted.seed + next;
            let mut r = Random::new(seed ^ 0x7E87);
            for _ in 0..OF_ONE {
                let found = amounts(&mut r, &mut answers).and_then(|()| text(&mut r, &mut answers));
                found.map_err(|f| format!("difference, texts of seed {seed}: {f}"))?;
            }
        }
        Ok(answers)
    })?;
    let mut answers = Answers::new();
    for ((asked, answer), times) in all.iter().flatten() {
        *answers.entry((asked, *answer)).or_default() += times;
    }
    let count = |asked| answers.iter().filter(|(a, _)| a.0 == asked).map(|(_, n)| n).sum::<u64>();
    for asked in ["amount read", "amount written"] {
        let of = |number| answers.get(&(asked, number)).copied().unwrap_or(0);
        let refused: Vec<_> = [12, 22, 23, 24].iter().map(|n| format!("{n}: {}", of(*n))).collect();
        println!("{asked}: {}, accepted {}, refused {}", count(asked), of(0), refused.join(", "));
    }
    for asked in ["path", "prefix", "name"] {
        let is_so = answers.get(&(asked, 0)).copied().unwrap_or(0);
        println!("texts as a {asked}: {}, of which {is_so} are one", count(asked));
    }
    Ok(())
}
