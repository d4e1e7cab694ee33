//! Maps that own their file, what `{:?}` prints, and records one after the other.

mod common;

use bsp29::{Hull, Map, MapOf, Record, Records, Refusal, Section};
use common::{rooms, smallest};
use std::fmt::Debug;
use std::rc::Rc;
use std::sync::Arc;

/// A file and its map in one struct, in whatever holds the file.
struct Level<B> {
    map: MapOf<B>,
    hulls: Vec<Hull>,
}

impl<B: AsRef<[u8]>> Level<B> {
    fn new(file: B) -> Result<Level<B>, Refusal> {
        let map = MapOf::load(file)?;
        map.accept()?;
        let hulls = (0..3).map(|index| map.hull(0, index)).collect::<Result<_, _>>()?;
        Ok(Level { map, hulls })
    }
}

/// What a level answers, as text.
fn answers<B: AsRef<[u8]>>(level: &Level<B>) -> String {
    let mut text = String::new();
    for hull in &level.hulls {
        let line = level.map.trace_line(hull, [-64.0, 64.0, 0.0], [64.0, 60.0, -9.0]);
        let trace = level.map.trace(hull, [-64.0, 0.0, 0.0], [64.0, 0.0, -63.0]);
        text += &format!("{line:?} {trace:?}");
    }
    text + level.map.entity_text().unwrap()
}

#[test]
fn the_same_answers_whoever_holds_the_file() {
    let file = rooms();
    let lent = answers(&Level::new(file.as_slice()).unwrap());
    assert_eq!(answers(&Level::new(file.clone()).unwrap()), lent);
    assert_eq!(answers(&Level::new(file.clone().into_boxed_slice()).unwrap()), lent);
    assert_eq!(answers(&Level::<Rc<[u8]>>::new(file.clone().into()).unwrap()), lent);
    let shared: Arc<[u8]> = file.clone().into();
    let level = Level::new(Arc::clone(&shared)).unwrap();
    assert_eq!(answers(&level), lent);
    assert!(Arc::ptr_eq(&shared, &level.map.clone().into_file()));
    let map = level.map.lent();
    assert_eq!((map.file(), map.words()), (&file[..], level.map.words()));
    assert_eq!(MapOf::load(vec![28, 0, 0, 0]).unwrap_err(), Refusal::UnsupportedVersion);
}

#[test]
fn several_threads_ask_one_map() {
    let level = Arc::new(Level::<Arc<[u8]>>::new(rooms().into()).unwrap());
    let expected = answers(&level);
    let threads = [0; 4].map(|_| {
        let level = Arc::clone(&level);
        std::thread::spawn(move || answers(&level))
    });
    for thread in threads {
        assert_eq!(thread.join().unwrap(), expected);
    }
}

/// Bytes that change from one look to the next. A map over them is refused something or answers, and
/// nothing worse.
struct Changing(std::cell::Cell<usize>, [Vec<u8>; 3]);

impl AsRef<[u8]> for Changing {
    fn as_ref(&self) -> &[u8] {
        self.0.set((self.0.get() + 1) % 3);
        &self.1[self.0.get()]
    }
}

#[test]
fn bytes_that_change() {
    let files = [rooms(), smallest(), vec![0xff; 40]];
    let words = *Map::load(&files[0]).unwrap().words();
    let map = MapOf::from_words(Changing(Default::default(), files), words);
    let hull = Hull::for_bounds([-1.0; 3], [1.0; 3]).unwrap();
    for _ in 0..9 {
        let _ = (map.hull(0, 1), map.accept(), map.entity_text(), map.visible_leaves(4, 5));
        let _ = (map.face_lightmaps(0), map.visibility(), map.models().values().count());
        let _ = map.face_vertices(0).map(|corners| corners.filter(|corner| corner.is_ok()).count());
        assert!(map.trace(&hull, [0.0; 3], [1.0; 3]).is_ok());
    }
}

#[test]
fn the_file_is_not_printed() {
    let mut file = rooms();
    let long = "the file's own text, which nobody wants in a log".repeat(100);
    file.extend(long.as_bytes());
    let map = Map::load(&file).unwrap();
    let owned = MapOf::load(file.clone()).unwrap();
    let hull = map.hull(0, 1).unwrap();
    let shown = [
        format!("{map:?}"),
        format!("{owned:?}"),
        format!("{:?}", map.planes()),
        format!("{:?}", map.leaves().iter()),
        format!("{:?}", map.leaves().values()),
        format!("{:?}", map.order(hull.table(), hull.root()).unwrap()),
        format!("{hull:?}"),
    ];
    for text in shown {
        assert!(text.len() < 1000, "{text}");
        // numbers of bytes one after the other, or the text itself
        assert!(!text.contains("29, 0, 0, 0") && !text.contains("nobody"), "{text}");
    }
    assert!(format!("{map:?}").contains(&format!("bytes: {}", file.len())));
}

fn both_ways<R: Record + Debug + PartialEq + Copy>(records: Records<'_, R>) {
    let by_index: Vec<R> = (0..records.len()).map(|index| records.get(index).unwrap()).collect();
    let forward: Vec<R> = records.into_iter().map(Result::unwrap).collect();
    assert_eq!(forward, by_index);
    let mut backward: Vec<R> = records.iter().rev().map(Result::unwrap).collect();
    backward.reverse();
    assert_eq!(backward, by_index);
    assert_eq!(records.values().collect::<Vec<R>>(), by_index);
    let mut backward: Vec<R> = records.values().rev().collect();
    backward.reverse();
    assert_eq!(backward, by_index);
    for start in 0..=records.len() {
        let mut iter = records.range(start..records.len()).unwrap();
        assert_eq!(iter.len(), records.len() - start);
        assert_eq!(iter.next().map(Result::unwrap), by_index.get(start).copied());
        assert_eq!(records.iter().nth(start).map(Result::unwrap), by_index.get(start).copied());
    }
    assert!(records.range(0..records.len() + 1).is_err());
    assert!((&records).into_iter().eq(records.iter()));
}

#[test]
fn records_both_ways() {
    let file = rooms();
    let map = Map::load(&file).unwrap();
    both_ways(map.planes());
    both_ways(map.vertices());
    both_ways(map.render_nodes());
    both_ways(map.texture_infos());
    both_ways(map.faces());
    both_ways(map.clip_nodes());
    both_ways(map.leaves());
    both_ways(map.face_list());
    both_ways(map.edges());
    both_ways(map.edge_list());
    both_ways(map.models());
}

#[test]
fn values_end_at_the_first_refusal() {
    let file = rooms();
    let words = *Map::load(&file).unwrap().words();
    let leaves = words[2 * Section::Leaves.number() as usize] as usize;
    // the third leaf has contents that are none
    let mut damaged = file.clone();
    damaged[leaves + 2 * 28] = 99;
    let map = Map::from_words(&damaged, words);
    assert_eq!(map.leaves().values().count(), 2);
    assert_eq!(map.leaves().values().rev().count(), 3);
    let mut values = map.leaves().values();
    assert_eq!(values.by_ref().count(), 2);
    assert_eq!((values.next(), values.next_back()), (None, None));
    assert_eq!(map.leaves().iter().filter(Result::is_err).count(), 1);
}
