//! Wrong answers, made from right ones, are refused wherever they are wrong.

mod literal;

use judge::Fault;
use literal::Asked;
use plain::Neighbor;
use scenarios::random::Random;
use std::collections::BTreeMap;

type Plant = fn(&Asked, &[Neighbor], &mut Random) -> Option<Vec<Neighbor>>;

/// A name and what makes the answer other than it was, where it can.
const PLANTS: [(&str, Plant); 10] = [
    ("one dropped", dropped),
    ("swapped order", swapped),
    ("distance wrong by one bit", wrong_bit),
    ("a marked id listed", marked),
    ("an id twice", twice),
    ("k + 1 listed", too_long),
    ("an id that is not built", not_built),
    ("another id in place of one", replaced),
    ("always id 0", id_0),
    ("nothing", nothing),
];

fn some_at(list: &[Neighbor], random: &mut Random) -> Option<usize> {
    (!list.is_empty()).then(|| random.below(list.len()))
}

fn some_id(asked: &Asked, random: &mut Random) -> u16 {
    random.below(asked.header.built as usize) as u16
}

fn dropped(_: &Asked, list: &[Neighbor], random: &mut Random) -> Option<Vec<Neighbor>> {
    let mut list = list.to_vec();
    list.remove(some_at(&list, random)?);
    Some(list)
}

fn swapped(_: &Asked, list: &[Neighbor], random: &mut Random) -> Option<Vec<Neighbor>> {
    let (a, b) = (some_at(list, random)?, some_at(list, random)?);
    let mut list = list.to_vec();
    list.swap(a, b);
    (a != b).then_some(list)
}

fn wrong_bit(_: &Asked, list: &[Neighbor], random: &mut Random) -> Option<Vec<Neighbor>> {
    let at = some_at(list, random)?;
    let mut list = list.to_vec();
    let bits = list[at].distance.to_bits() ^ (1 << random.below(32));
    list[at].distance = f32::from_bits(bits);
    Some(list)
}

fn marked(asked: &Asked, list: &[Neighbor], random: &mut Random) -> Option<Vec<Neighbor>> {
    let id = some_id(asked, random);
    let mut list = list.to_vec();
    list.push(asked.neighbor(id));
    list.sort_by_key(|n| n.order());
    list.truncate(asked.k);
    asked.marked(id).then_some(list)
}

fn twice(_: &Asked, list: &[Neighbor], random: &mut Random) -> Option<Vec<Neighbor>> {
    let mut list = list.to_vec();
    let at = some_at(&list, random)?;
    list.insert(at, list[at]);
    Some(list)
}

/// The nearest k + 1 unmarked ids.
fn too_long(asked: &Asked, _: &[Neighbor], _: &mut Random) -> Option<Vec<Neighbor>> {
    let unmarked = (0..asked.header.built).filter(|id| !asked.marked(*id));
    let mut list: Vec<Neighbor> = unmarked.map(|id| asked.neighbor(id)).collect();
    list.sort_by_key(|n| n.order());
    list.truncate(asked.k + 1);
    (list.len() > asked.k).then_some(list)
}

fn not_built(asked: &Asked, list: &[Neighbor], random: &mut Random) -> Option<Vec<Neighbor>> {
    let mut list = list.to_vec();
    let at = some_at(&list, random)?;
    list[at].id = random.pick(&[
        asked.header.built,
        asked.header.added.max(asked.header.built),
        65_535,
    ]);
    Some(list)
}

fn replaced(asked: &Asked, list: &[Neighbor], random: &mut Random) -> Option<Vec<Neighbor>> {
    let id = some_id(asked, random);
    let mut list = list.to_vec();
    let at = some_at(&list, random)?;
    let other = list.iter().all(|n| n.id != id) && !asked.marked(id);
    list[at] = asked.neighbor(id);
    list.sort_by_key(|n| n.order());
    other.then_some(list)
}

fn id_0(asked: &Asked, _: &[Neighbor], _: &mut Random) -> Option<Vec<Neighbor>> {
    Some(vec![asked.neighbor(0)])
}

fn nothing(_: &Asked, _: &[Neighbor], _: &mut Random) -> Option<Vec<Neighbor>> {
    Some(Vec::new())
}

fn kind(fault: &Fault) -> &'static str {
    match fault {
        Fault::TooLong { .. } => "too long",
        Fault::NotBuilt { .. } => "not built",
        Fault::Twice { .. } => "twice",
        Fault::Marked { .. } => "marked",
        Fault::WrongDistance { .. } => "wrong distance",
        Fault::WrongOrder { .. } => "wrong order",
        Fault::LeftOut { .. } => "left out",
        Fault::Missing { .. } => "missing",
        Fault::EntryNotBuilt => panic!("the entry id is built"),
    }
}

/// A fault that names an id shows a chain that counts: linked, from the entry id to the absent id,
/// with only such ids between as the demand wants.
fn chain_counts(asked: &Asked, list: &[Neighbor], fault: &Fault) {
    let (id, chain) = match fault {
        Fault::LeftOut { id, chain } | Fault::Missing { id, chain } => (*id, chain),
        _ => return,
    };
    assert_eq!((chain[0], chain[chain.len() - 1]), (0, id));
    assert!(!asked.marked(id) && list.iter().all(|n| n.id != id));
    for pair in chain.windows(2) {
        let next = asked.tables.view().list(&asked.header, pair[0] as usize, 0);
        assert!(next.contains(&pair[1]));
    }
    let last = list.last().map(|n| n.order());
    for inner in chain.get(1..chain.len() - 1).unwrap_or(&[]) {
        match fault {
            Fault::LeftOut { .. } => assert!(Some(asked.neighbor(*inner).order()) < last),
            _ => assert!(!asked.marked(*inner)),
        }
    }
}

#[test]
fn wrong_answers_are_refused() {
    let mut random = Random::new(5);
    let mut refused: BTreeMap<&str, usize> = BTreeMap::new();
    let mut faults: BTreeMap<&str, usize> = BTreeMap::new();
    let mut still_right = 0;
    for _ in 0..20_000 {
        let mut asked = Asked::random(&mut random);
        if asked.header.built > 7 {
            continue;
        }
        let answer = asked.answer();
        for (name, plant) in PLANTS {
            let Some(list) = plant(&asked, &answer, &mut random) else {
                continue;
            };
            match asked.judge(0, &list) {
                Ok(()) => {
                    assert!(asked.is_right(0, &list), "{name}: {list:?}");
                    still_right += 1;
                }
                Err(fault) => {
                    assert!(!asked.is_right(0, &list), "{name}: {list:?} {fault:?}");
                    chain_counts(&asked, &list, &fault);
                    *refused.entry(name).or_insert(0) += 1;
                    *faults.entry(kind(&fault)).or_insert(0) += 1;
                }
            }
        }
    }
    println!("refused {refused:?}\nfaults {faults:?}\nstill right {still_right}");
    assert_eq!(refused.len(), PLANTS.len());
    assert_eq!(faults.len(), 8);
    assert!(refused.values().chain(faults.values()).all(|n| *n > 100));
}
