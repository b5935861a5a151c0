//! Batch, route and list on accepted sets: the check is made once before, on every side.

use crate::inputs::files::Files;
use crate::inputs::queries::{Asked, asked, batch};
use crate::inputs::right::Askable;
use crate::plain::queries::{Answer, Queries};
use crate::plain::search::Search;
use crate::proved::Accepted;
use crate::timing::Row;

/// More than any list here has.
const ROOM: usize = 1 << 16;

/// How many are asked of the search without labels, which takes long.
const FEW: usize = 32;

/// Lists are timed until they have so many entries together: an entry can take a query of its own.
const ENOUGH: usize = 4_000;

/// Two junctions.
type Ends = (usize, usize);

/// A query that has an answer, and its pair.
pub struct Found {
    pub s: usize,
    pub t: usize,
    pub pair: (u32, u32),
}

/// The queries among those asked that have an answer.
pub fn found(asked: &[Asked], answers: &[u32]) -> Vec<Found> {
    let found = asked.iter().zip(answers.chunks_exact(3));
    let found = found.filter(|(_, answer)| answer[0] == 0);
    let found = found.map(|(one, answer)| Found {
        s: one.s as usize,
        t: one.t as usize,
        pair: (answer[1], answer[2]),
    });
    found.collect()
}

/// One set, accepted on every side, and a search that has its roads alone.
struct Sides<'a> {
    note: &'static str,
    plain: Queries<'a>,
    peer: peer::Accepted<'a>,
    proved: Accepted<'a>,
    search: Search,
}

pub fn rows(Askable { files, ends }: &Askable) {
    let asked = asked(files, *ends);
    let mut sides = Sides::new(files);
    let answers = sides.answers(&asked);
    sides.answers_of_search(&asked[..FEW]);
    let found = found(&asked, &answers);
    sides.routes(&found[..found.len().min(256)]);
    let ends = asked[..FEW].iter();
    let ends = ends.map(|one| (one.s as usize, one.t as usize));
    sides.lists(&ends.collect::<Vec<Ends>>());
}

impl<'a> Sides<'a> {
    fn new(files: &'a Files) -> Sides<'a> {
        let (net, labels) = (&files.net, &files.labels);
        Sides {
            note: files.note,
            plain: Queries::new(net, labels),
            peer: peer::Accepted::new(net, labels).expect("the labels are right"),
            proved: Accepted::new(net, labels).expect("the labels are right"),
            search: Search::new(net),
        }
    }

    /// One batch; its answers.
    fn answers(&mut self, asked: &[Asked]) -> Vec<u32> {
        let queries = batch(asked);
        let [mut plain, mut peer, mut proved] = [(); 3].map(|()| vec![7; queries.len()]);
        self.plain.answer_all(&queries, &mut plain);
        self.peer.answer_all(&queries, &mut peer);
        self.proved.answer_all(&queries, &mut proved);
        assert_eq!([&peer, &proved], [&plain; 2], "{}", self.note);
        let row = Row::of_three(
            || self.plain.answer_all(&queries, &mut plain),
            || self.peer.answer_all(&queries, &mut peer),
            || self.proved.answer_all(&queries, &mut proved),
        );
        let what = format!("batch of {} triples", asked.len());
        row.print(&what, self.note);
        self.peer.answer_all_bounded(&queries, &mut peer);
        assert_eq!(peer, plain, "{}", self.note);
        let row = Row::of_three(
            || self.plain.answer_all(&queries, &mut plain),
            || self.peer.answer_all_bounded(&queries, &mut peer),
            || self.proved.answer_all(&queries, &mut proved),
        );
        row.print(&format!("{what}, C++ with bounds first"), self.note);
        plain
    }

    fn answers_of_search(&mut self, asked: &[Asked]) {
        let queries = batch(asked);
        let mut answers = vec![7; queries.len()];
        self.proved.answer_all(&queries, &mut answers);
        for (one, answer) in asked.iter().zip(answers.chunks_exact(3)) {
            let wanted = match self.search.answer(one.s, one.t, one.limit) {
                Answer::Found(time, energy) => [0, time, energy],
                Answer::OffMap => [21, 0, 0],
                Answer::NotConnected => [22, 0, 0],
                Answer::OverLimit => [23, 0, 0],
            };
            assert_eq!(answer, wanted, "{}", self.note);
        }
        let row = Row::of_two(
            || {
                let answers = asked
                    .iter()
                    .map(|one| self.search.answer(one.s, one.t, one.limit));
                answers
                    .filter(|answer| matches!(answer, Answer::Found(..)))
                    .count()
            },
            || self.proved.answer_all(&queries, &mut answers),
        );
        let what = format!(
            "batch of {} triples, against a search without labels",
            asked.len()
        );
        row.print(&what, self.note);
    }

    fn routes(&mut self, found: &[Found]) {
        let [mut plain, mut peer, mut proved] = [[0; 1_024]; 3];
        let mut met = 0;
        for &Found { s, t, pair } in found {
            let counts = [
                self.plain.route(s, t, pair, &mut plain),
                self.peer.route(s, t, pair, &mut peer),
                self.proved.route(s, t, pair, &mut proved),
            ];
            let route = &plain[..counts[0]];
            let others = [&peer[..counts[1]], &proved[..counts[2]]];
            assert_eq!(others, [route; 2], "{}", self.note);
            met += route.len();
        }
        let mut plain = |one: &Found| self.plain.route(one.s, one.t, one.pair, &mut plain);
        let mut peer = |one: &Found| self.peer.route(one.s, one.t, one.pair, &mut peer);
        let mut proved = |one: &Found| self.proved.route(one.s, one.t, one.pair, &mut proved);
        let row = Row::of_three(
            || total(found, &mut plain),
            || total(found, &mut peer),
            || total(found, &mut proved),
        );
        let what = format!("{} routes, their pairs known; {met} junctions", found.len());
        row.print(&what, self.note);
    }

    fn lists(&mut self, ends: &[Ends]) {
        let (count, entries) = self.compared_lists(ends);
        let ends = &ends[..count];
        let what = match count {
            1 => format!("1 list, {entries} entries"),
            _ => format!("{count} lists, {entries} entries"),
        };
        let [mut plain, mut peer, mut proved, mut search] = [(); 4].map(|()| Columns::new());
        let mut plain = |ends: &Ends| plain.count(|x, y| self.plain.list(ends.0, ends.1, x, y));
        let mut peer = |ends: &Ends| peer.count(|x, y| self.peer.list(ends.0, ends.1, x, y));
        let mut proved = |ends: &Ends| proved.count(|x, y| self.proved.list(ends.0, ends.1, x, y));
        let mut search =
            |ends: &Ends| search.count(|x, y| self.search.list(ends.0 as u32, ends.1 as u32, x, y));
        let row = Row::of_three(
            || total(ends, &mut plain),
            || total(ends, &mut peer),
            || total(ends, &mut proved),
        );
        row.print(&what, self.note);
        let row = Row::of_two(|| total(ends, &mut search), || total(ends, &mut proved));
        row.print(
            &format!("{what}, against a search without labels"),
            self.note,
        );
    }

    /// How many lists are worth timing, and how many entries they have: the same on every side and by the search.
    fn compared_lists(&mut self, ends: &[Ends]) -> (usize, usize) {
        let [mut plain, mut peer, mut proved, mut search] = [(); 4].map(|()| Columns::new());
        let (mut count, mut entries) = (0, 0);
        while count < ends.len() && entries < ENOUGH {
            let (s, t) = ends[count];
            let wanted = search.filled(|x, y| self.search.list(s as u32, t as u32, x, y));
            let others = [
                plain.filled(|x, y| self.plain.list(s, t, x, y)),
                peer.filled(|x, y| self.peer.list(s, t, x, y)),
                proved.filled(|x, y| self.proved.list(s, t, x, y)),
            ];
            assert_eq!(others, [wanted; 3], "{}", self.note);
            entries += wanted.0.len();
            count += 1;
        }
        (count, entries)
    }
}

fn total<T>(items: &[T], count: impl FnMut(&T) -> usize) -> usize {
    items.iter().map(count).sum()
}

/// Room for a list.
struct Columns {
    times: Vec<u32>,
    energies: Vec<u32>,
}

impl Columns {
    fn new() -> Columns {
        Columns {
            times: vec![0; ROOM],
            energies: vec![0; ROOM],
        }
    }

    /// How many places `fill` says that it has filled.
    fn count(&mut self, fill: impl FnOnce(&mut [u32], &mut [u32]) -> usize) -> usize {
        fill(&mut self.times, &mut self.energies)
    }

    /// Those places.
    fn filled(&mut self, fill: impl FnOnce(&mut [u32], &mut [u32]) -> usize) -> (&[u32], &[u32]) {
        let count = self.count(fill);
        (&self.times[..count], &self.energies[..count])
    }
}
