//! The model's searches against all paths of small networks, walked one by one.

use generate::networks;
use generate::random::Random;
use model::network::Network;
use model::route::first_route;
use model::search::trade_offs_from;
use model::units::{List, Pair};

/// A path that visits no junction twice. Longer walks are beaten by what is left of them without their
/// circles, so they add nothing to a trade-off list.
struct Path {
    junctions: Vec<usize>,
    pair: Pair,
}

fn extend(network: &Network, target: usize, path: &mut Path, found: &mut Vec<Path>) {
    let last = *path.junctions.last().expect("a path has a junction");
    if last == target {
        found.push(Path {
            junctions: path.junctions.clone(),
            pair: path.pair,
        });
        return;
    }
    for road in &network.roads {
        let next = match last {
            end if end == road.lower => road.higher,
            end if end == road.higher => road.lower,
            _ => continue,
        };
        if path.junctions.contains(&next) {
            continue;
        }
        let before = path.pair;
        path.pair = before.plus(road.pair);
        path.junctions.push(next);
        extend(network, target, path, found);
        path.junctions.pop();
        path.pair = before;
    }
}

fn all_paths(network: &Network, source: usize, target: usize) -> Vec<Path> {
    let mut found = Vec::new();
    let mut path = Path {
        junctions: vec![source],
        pair: Pair::NOTHING,
    };
    extend(network, target, &mut path, &mut found);
    found
}

fn beats(one: Pair, other: Pair) -> bool {
    one.time <= other.time && one.energy <= other.energy && one != other
}

/// The trade-off list in words: the pair of each path that no path's pair beats, each once, energy
/// rising.
fn trade_off_list(paths: &[Path]) -> List {
    let mut list: List = paths.iter().map(|path| path.pair).collect();
    let pairs = list.clone();
    list.retain(|&pair| !pairs.iter().any(|&other| beats(other, pair)));
    list.sort_by_key(|pair| pair.energy);
    list.dedup();
    list
}

#[test]
fn lists_and_first_routes_are_those_of_all_paths() {
    let (mut lists, mut routes, mut shared) = (0, 0, 0);
    for index in 0..4_000 {
        let mut random = Random::new(15, index);
        let network = networks::network(&mut random);
        if network.junctions > 9 {
            continue;
        }
        let source = random.below(network.junctions);
        let found = trade_offs_from(&network, source);
        for (target, list) in found.iter().enumerate() {
            let paths = all_paths(&network, source, target);
            assert_eq!(*list, trade_off_list(&paths), "set {index}");
            lists += 1;
            for &pair in list {
                let with_pair = paths.iter().filter(|path| path.pair == pair);
                shared += usize::from(with_pair.clone().count() > 1);
                let first = with_pair.map(|path| path.junctions.clone()).min();
                assert_eq!(first_route(&network, source, target, pair), first);
                routes += 1;
            }
        }
    }
    assert!(
        lists > 5_000 && routes > 5_000 && shared > 500,
        "{lists} {routes} {shared}"
    );
}
