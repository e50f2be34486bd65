//! The answer numbers: each is given, and of several that apply the lowest. A call is asked with
//! every fault at once; then the faults are mended one at a time, lowest number first.

mod common;

use common::{line, line_header, profiles, Index};
use plain::Header;

const NAN: f32 = f32::from_bits(0xFFA1_2345);

/// Bounds, a length and a rule at fault, whatever the call.
fn spoil(index: &mut Index) {
    index.header.ef_search = 513;
    index.tables.levels.push(0);
    index.tables.vectors[0] = NAN;
}

/// The numbers that `call` gives while those three faults are mended, each time with nothing
/// changed, and then the number with none of them left.
fn mended(mut index: Index, mut call: impl FnMut(&mut Index) -> u32) -> Vec<u32> {
    spoil(&mut index);
    let mends: [fn(&mut Index); 3] = [
        |index| index.header.ef_search = 1,
        |index| index.tables.levels.truncate(index.header.capacity as usize),
        |index| index.tables.vectors[0] = 0.0,
    ];
    let mut numbers = vec![refused(&mut index, &mut call)];
    for mend in mends {
        mend(&mut index);
        numbers.push(refused(&mut index, &mut call));
    }
    numbers
}

/// A refusal hands back the header as given and changes nothing.
fn refused(index: &mut Index, call: impl FnOnce(&mut Index) -> u32) -> u32 {
    let before = index.bits();
    let number = call(index);
    assert_ne!(number, 0);
    assert_eq!(index.bits(), before);
    number
}

#[test]
fn beginning() {
    let mut index = profiles(1);
    spoil(&mut index);
    let given = index.header;
    let mut before = index.clone();
    let zeros = Header {
        metric: 0,
        added: 0,
        built: 0,
        ..given
    };
    // Refused, the header has its three zeros all the same.
    assert_eq!(index.begin(), 1);
    before.header = zeros;
    assert_eq!(index.bits(), before.bits());
    index.header = Header {
        ef_search: 1,
        ..given
    };
    assert_eq!(index.begin(), 2);
    before.header.ef_search = 1;
    assert_eq!(index.bits(), before.bits());
    // No rule is tested: the NaN and a metric that no table has are no matter.
    index.tables.levels.pop();
    index.header.metric = 9;
    assert_eq!(index.begin(), 0);
    assert_eq!(index.bits(), Index::begun(line_header(4, 1)).bits());
}

#[test]
fn adding() {
    let index = profiles(1);
    let wrong = [NAN, 1.0];
    assert_eq!(mended(index.clone(), |i| i.add(&wrong, 1)), [1, 2, 3, 6]);
    let mut full = index;
    assert_eq!(refused(&mut full, |i| i.add(&wrong[1..], 0)), 7);
    assert_eq!(refused(&mut full, |i| i.add(&wrong[..1], 1)), 7);
    let mut free = Index::begun(line_header(4, 1));
    assert_eq!(refused(&mut free, |i| i.add(&[], 1)), 6);
    // Level 1 above `max_level` 0: id 0 too, though it would get `max_level`.
    assert_eq!(refused(&mut free, |i| i.add(&wrong[..1], 1)), 8);
    assert_eq!(refused(&mut free, |i| i.add(&[1.0], 255)), 8);
    for bad in [NAN, f32::NAN, f32::INFINITY, f32::NEG_INFINITY] {
        assert_eq!(refused(&mut free, |i| i.add(&[bad], 0)), 9);
    }
    assert_eq!(free.add(&[-0.0], 0), 0);
    assert_eq!(free.header.added, 1);
    assert_eq!(free.tables.vectors[0].to_bits(), 0x8000_0000);
}

/// Id 0 gets `max_level`, the others their own.
#[test]
fn levels_given() {
    let mut index = Index::begun(Header::of(&[1, 3, 1, 1, 2, 1, 1, 0, 0, 0, 0]));
    for level in [1, 1, 2] {
        assert_eq!(index.add(&[1.0], level), 0);
    }
    assert_eq!(index.tables.levels, [2, 1, 2]);
}

#[test]
fn building() {
    let index = profiles(1);
    assert_eq!(mended(index.clone(), |i| i.build(4)), [1, 2, 3, 4]);
    let mut built = index;
    for metric in [0, 4, 5, 6, 65_535] {
        assert_eq!(refused(&mut built, |i| i.build(metric)), 4);
    }
    assert_eq!(refused(&mut built, |i| i.build(1)), 5);
    assert_eq!(refused(&mut built, |i| i.build(2)), 5);
    let before = built.bits();
    assert_eq!(built.build(3), 0);
    assert_eq!(built.bits(), before);
}

/// With nothing added, and with none pending, a build is done and sets the metric. Only with an
/// id built is another metric refused.
#[test]
fn building_nothing() {
    let mut index = Index::begun(line_header(4, 0));
    let begun = index.clone();
    for metric in [2, 1, 3] {
        assert_eq!(index.build(metric), 0);
        assert_eq!(
            index.header,
            Header {
                metric,
                ..begun.header
            }
        );
    }
    assert_eq!(refused(&mut index, |i| i.build(0)), 4);
    assert_eq!(index.add(&[1.0], 0), 0);
    assert_eq!(index.build(1), 0);
    assert_eq!(refused(&mut index, |i| i.build(3)), 5);
}

#[test]
fn marking() {
    let without = profiles(0);
    assert_eq!(mended(without.clone(), |i| i.mark(4)), [1, 2, 3, 12]);
    let mut without = without;
    assert_eq!(refused(&mut without, |i| i.mark(0)), 12);
    let mut index = Index::begun(line_header(5, 1));
    assert_eq!(refused(&mut index, |i| i.mark(0)), 13);
    assert_eq!(index.add(&[1.0], 0), 0);
    assert_eq!(refused(&mut index, |i| i.mark(0)), 13);
    assert_eq!(index.build(3), 0);
    assert_eq!(index.add(&[1.0], 0), 0);
    // Id 1 equals the built count: the Rust would let it through.
    for id in [1, 2, 4, 5, 65_535] {
        assert_eq!(refused(&mut index, |i| i.mark(id)), 13);
    }
    let before = index.header;
    assert_eq!(index.mark(0), 0);
    assert_eq!(index.header, before);
    assert_eq!(index.tables.marks, [1, 0, 0, 0, 0]);
    assert_eq!(refused(&mut index, |i| i.mark(0)), 14);
}

#[test]
fn searching() {
    let index = profiles(0);
    let ask = |query: &'static [f32], k, room| {
        move |i: &mut Index| {
            let searched = i.search_into(query, k, room);
            assert!(searched.number == 0 || searched.list.is_empty());
            searched.number
        }
    };
    let wrong = ask(&[NAN, 1.0], 513, (0, 0));
    assert_eq!(mended(index.clone(), wrong), [1, 2, 3, 6]);
    let mut index = index;
    assert_eq!(ask(&[], 513, (0, 0))(&mut index), 6);
    assert_eq!(ask(&[NAN], 513, (0, 0))(&mut index), 9);
    assert_eq!(ask(&[f32::INFINITY], 1, (1, 1))(&mut index), 9);
    assert_eq!(ask(&[1.0], 513, (0, 0))(&mut index), 10);
    assert_eq!(ask(&[1.0], 513, (513, 513))(&mut index), 10);
    assert_eq!(ask(&[1.0], usize::MAX, (9, 9))(&mut index), 10);
    for short in [(0, 0), (0, 9), (9, 0), (3, 3), (3, 4), (4, 3)] {
        assert_eq!(ask(&[1.0], 4, short)(&mut index), 11);
    }
    assert_eq!(ask(&[1.0], 512, (511, 512))(&mut index), 11);
    assert_eq!(ask(&[1.0], 4, (4, 4))(&mut index), 0);
    assert_eq!(ask(&[1.0], 512, (512, 512))(&mut index), 0);
    assert_eq!(ask(&[1.0], 0, (0, 0))(&mut index), 0);
}

/// A buffer too short is refused though nothing would be found.
#[test]
fn searching_with_nothing_built() {
    let mut index = Index::begun(line_header(1, 0));
    assert_eq!(index.search_into(&[1.0], 1, (0, 0)).number, 11);
    assert_eq!(index.search_into(&[1.0, 1.0], 1, (1, 1)).number, 6);
    assert_eq!(index.search(&[1.0], 1), []);
    let mut built = line(&[5.0], 0);
    assert_eq!(built.search(&[5.0], 1), [(0, 0)]);
}
