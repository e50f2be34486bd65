//! The plain reading's answers are accepted, on tables that no build made and on built ones; and on
//! small tables the judge says of any list what demand 3 says to the letter.

mod literal;

use literal::Asked;
use plain::Neighbor;
use scenarios::random::Random;

const TABLES: usize = 30_000;

/// What was met, so that the test says something of each.
#[derive(Debug, Default)]
struct Met {
    metrics: [usize; 4],
    by_build: usize,
    by_no_build: usize,
    short: usize,
    full: usize,
    empty: usize,
    with_marks: usize,
    marked_entry: usize,
    equal_distances: usize,
    /// A short list that lacks an unmarked built id.
    unlisted: usize,
}

impl Met {
    fn take(&mut self, asked: &Asked, list: &[Neighbor]) {
        self.metrics[asked.header.metric as usize] += 1;
        self.by_build += asked.by_build as usize;
        self.by_no_build += !asked.by_build as usize;
        self.short += (list.len() < asked.k) as usize;
        self.full += (list.len() == asked.k) as usize;
        self.empty += list.is_empty() as usize;
        let marks = asked.tables.marks.iter().filter(|m| **m == 1).count();
        self.with_marks += (marks > 0) as usize;
        self.marked_entry += asked.marked(0) as usize;
        let equal = |pair: &[Neighbor]| pair[0].order() == pair[1].order();
        self.equal_distances += list.windows(2).any(equal) as usize;
        let unmarked = asked.header.built as usize - marks;
        self.unlisted += (list.len() < asked.k && list.len() < unmarked) as usize;
    }

    fn all(&self) -> bool {
        let [unknown, known @ ..] = self.metrics;
        let counts = [
            self.by_build,
            self.by_no_build,
            self.short,
            self.full,
            self.empty,
            self.with_marks,
            self.marked_entry,
            self.equal_distances,
            self.unlisted,
        ];
        unknown == 0 && known.iter().chain(&counts).all(|count| *count > 100)
    }
}

#[test]
fn the_plain_answers_are_accepted() {
    let mut random = Random::new(3);
    let mut met = Met::default();
    for at in 0..TABLES {
        let mut asked = Asked::random(&mut random);
        let list = asked.answer();
        assert_eq!(
            asked.judge(0, &list),
            Ok(()),
            "table {at}: {:?}",
            asked.header
        );
        met.take(&asked, &list);
    }
    println!("{met:?}");
    assert!(met.all() && met.by_no_build > 20_000, "{met:?}");
}

/// Lists of true neighbours, right or not: any unmarked ids in order, now and then out of order.
fn any_list(asked: &Asked, random: &mut Random) -> Vec<Neighbor> {
    let chance = random.pick(&[30, 60, 90, 100]);
    let built = 0..asked.header.built;
    let kept: Vec<u16> = built.filter(|_| random.percent(chance)).collect();
    let unmarked = kept.into_iter().filter(|id| !asked.marked(*id));
    let mut list: Vec<Neighbor> = unmarked.map(|id| asked.neighbor(id)).collect();
    if random.percent(95) {
        list.sort_by_key(|n| n.order());
    }
    if random.percent(95) {
        list.truncate(asked.k);
    }
    list
}

/// From any built id as the entry id.
#[test]
fn the_judge_says_what_demand_3_says() {
    let mut random = Random::new(4);
    let (mut right, mut wrong) = (0, 0);
    while right + wrong < 60_000 {
        let mut asked = Asked::random(&mut random);
        if asked.header.built > 7 {
            continue;
        }
        let answer = asked.answer();
        assert!(asked.is_right(0, &answer));
        for _ in 0..4 {
            let list = any_list(&asked, &mut random);
            let entry = random.below(asked.header.built as usize) as u16;
            let expected = asked.is_right(entry, &list);
            assert_eq!(asked.judge(entry, &list).is_ok(), expected, "{list:?}");
            right += expected as usize;
            wrong += !expected as usize;
        }
    }
    println!("{right} right, {wrong} wrong");
    assert!(right > 5_000 && wrong > 5_000);
}
