//! The circle that is said: the shortest and least, its marks, and the makers
//! of graphs and tables with circles of every length.

use second::circle::{around, marked_circle};
use second::graph::{compound, edge, ends, pairs, MOST_NODES};
use second::kinds::{has_ties, is_met_late, root_links};
use second::random::Random;
use second::table::inherited;
use second::{known, make, read, report, run, run_grammar, shortest_circle, shortest_path, write};
use second::{Answer, Grammar, Link, Mark, Outcome, Production};
use std::collections::BTreeSet;

type Links = Vec<Vec<usize>>;

/// All paths that meet no node twice, though they may end where they began.
fn all_paths(links: &Links, from: usize, to: usize) -> Vec<Vec<usize>> {
    let mut found = Vec::new();
    go_on(links, &mut vec![from], to, &mut found);
    found
}

/// Goes deeper from the last node of the path.
fn go_on(links: &Links, path: &mut Vec<usize>, to: usize, found: &mut Vec<Vec<usize>>) {
    for &next in &links[path[path.len() - 1]] {
        if next == to {
            found.push(path.clone());
        } else if !path.contains(&next) {
            path.push(next);
            go_on(links, path, to, found);
            path.pop();
        }
    }
}

/// All circles, each written from its smallest node.
fn all_circles(links: &Links) -> Vec<Vec<usize>> {
    let mut circles = Vec::new();
    for node in 0..links.len() {
        circles.extend(all_paths(links, node, node));
    }
    circles.retain(|circle| circle.iter().min() == circle.first());
    circles
}

/// By length, then node by node.
fn pick(mut lists: Vec<Vec<usize>>) -> Option<Vec<usize>> {
    lists.sort_by(|a, b| a.len().cmp(&b.len()).then(a.cmp(b)));
    lists.into_iter().next()
}

fn circle_holds(links: &Links) {
    let circles = all_circles(links);
    let shortest = circles.iter().map(Vec::len).min();
    let ties = circles.iter().filter(|c| Some(c.len()) == shortest);
    assert_eq!(has_ties(links), ties.count() > 1, "{links:?}");
    let smallest = circles.iter().map(|circle| circle[0]).min();
    let with_smallest = circles.iter().filter(|c| Some(c[0]) == smallest);
    let late = with_smallest.map(Vec::len).min() > shortest;
    assert_eq!(is_met_late(links), late, "{links:?}");
    assert_eq!(shortest_circle(links), pick(circles), "{links:?}");
}

fn paths_hold(links: &Links) {
    for from in 0..links.len() {
        for to in 0..links.len() {
            let wanted = pick(all_paths(links, from, to));
            assert_eq!(shortest_path(links, from, to), wanted, "{links:?}");
        }
    }
}

/// The graph whose link from a to b is there if bit number a n + b is set.
fn numbered(nodes: usize, bits: usize) -> Links {
    let is_set = |from, to| bits >> (from * nodes + to) & 1 == 1;
    let row = |from| (0..nodes).filter(move |&to| is_set(from, to)).collect();
    (0..nodes).map(row).collect()
}

#[test]
fn small_graphs_all() {
    for nodes in 1..=3 {
        for bits in 0..1 << (nodes * nodes) {
            circle_holds(&numbered(nodes, bits));
            paths_hold(&numbered(nodes, bits));
        }
    }
    for bits in 0..1 << 16 {
        circle_holds(&numbered(4, bits));
    }
}

/// Each link is there once in so many times.
fn random_graph(random: &mut Random, nodes: usize, many: usize) -> Links {
    let row = |_| (0..nodes).filter(|_| random.once_in(many)).collect();
    (0..nodes).map(row).collect()
}

/// A ring through all nodes in some order, with some of them passed by.
fn random_ring(random: &mut Random, nodes: usize) -> Links {
    let mut order: Vec<_> = (0..nodes).collect();
    random.shuffle(&mut order);
    let mut links = vec![Vec::new(); nodes];
    for place in 0..nodes {
        let ahead = |by| order[(place + by) % nodes];
        links[ahead(0)].push(ahead(1));
        if random.once_in(4) {
            links[ahead(0)].push(ahead(2));
        }
    }
    links
}

#[test]
fn random_graphs() {
    let random = &mut Random::new(3);
    let mut lengths = [0; 9];
    for turn in 0..4000 {
        let nodes = random.between(5, 8);
        let many = random.between(2, 10);
        let links = if turn % 2 == 0 {
            random_graph(random, nodes, many)
        } else {
            random_ring(random, nodes)
        };
        circle_holds(&links);
        paths_hold(&links);
        lengths[shortest_circle(&links).unwrap_or_default().len()] += 1;
    }
    assert!(lengths.iter().all(|&count| count > 30), "{lengths:?}");
}

/// The order of a node's links and links that are there twice mean nothing.
#[test]
fn links_as_a_set() {
    let random = &mut Random::new(4);
    for _ in 0..1000 {
        let links = random_graph(random, 8, 5);
        let mut other = links.clone();
        for row in &mut other {
            row.extend(row.clone());
            random.shuffle(row);
        }
        assert_eq!(shortest_circle(&other), shortest_circle(&links));
        assert_eq!(shortest_path(&other, 1, 2), shortest_path(&links, 1, 2));
    }
}

#[test]
fn graphs_without_links() {
    assert_eq!(shortest_circle(&[]), None);
    assert_eq!(shortest_circle(&vec![Vec::new(); 64]), None);
    assert_eq!(shortest_path(&vec![Vec::new(); 64], 5, 5), None);
}

/// For each two nodes the links of the shortest path of one or more.
fn distances(links: &Links) -> Vec<Vec<usize>> {
    const FAR: usize = 1000;
    let nodes = links.len();
    let mut far = vec![vec![FAR; nodes]; nodes];
    for (from, row) in links.iter().enumerate() {
        for &to in row {
            far[from][to] = 1;
        }
    }
    for over in 0..nodes {
        for from in 0..nodes {
            for to in 0..nodes {
                far[from][to] = far[from][to].min(far[from][over] + far[over][to]);
            }
        }
    }
    far
}

/// The circle by another way, for graphs that have too many: from the first
/// node with the shortest way back, always to the smallest node from which
/// the rest of it remains.
fn by_distances(links: &Links) -> Vec<usize> {
    let far = distances(links);
    let length = (0..links.len()).map(|node| far[node][node]).min().unwrap();
    let first = (0..links.len()).find(|&node| far[node][node] == length);
    let mut circle = vec![first.unwrap()];
    for rest in (1..length).rev() {
        let next = links[circle[circle.len() - 1]].iter().copied();
        let next = next.filter(|&node| far[node][circle[0]] == rest).min();
        circle.push(next.unwrap());
    }
    circle
}

#[test]
fn ring_graphs_have_the_wanted_length() {
    let (mut ties, mut late) = (0, 0);
    for length in 1..=MOST_NODES {
        for seed in 0..8 {
            let production = make::ring_graph(seed, Some(length));
            assert!(production.edges.is_sorted_by(|a, b| a < b));
            let links = compound(&production, &[]);
            assert!(links.len() >= length && links.len() <= MOST_NODES);
            let circle = shortest_circle(&links).unwrap();
            assert_eq!(circle.len(), length, "seed {seed}");
            assert_eq!(circle, by_distances(&links), "{length} seed {seed}");
            ties += usize::from(has_ties(&links));
            late += usize::from(is_met_late(&links));
        }
    }
    // Of 512.
    assert!(ties > 350, "{ties}");
    assert!(late > 60, "{late}");
}

#[test]
fn ring_graphs_have_every_length() {
    let mut lengths = BTreeSet::new();
    for seed in 0..500 {
        let production = make::ring_graph(seed, None);
        let circle = shortest_circle(&compound(&production, &[]));
        lengths.insert(circle.unwrap().len());
    }
    assert_eq!(lengths, (1..=MOST_NODES).collect());
    assert_eq!(make::ring_graph(9, None), make::ring_graph(9, None));
}

/// Edges alone, with a subtree's pairs, and with pairs that repeat an edge:
/// such a link is an edge, though no table that is taken has it.
#[test]
fn marks_of_any_production() {
    let mut production = Production {
        left: 0,
        right: vec![0],
        edges: vec![edge(8, 9), edge(9, 8)],
    };
    let marked = |node, mark| Link { node, mark };
    let both_edges = [marked(8, Mark::Edge), marked(9, Mark::Edge)];
    let pair_8_9 = 1 << 1;
    assert_eq!(marked_circle(&production, &[]), both_edges);
    assert_eq!(marked_circle(&production, &[0]), both_edges);
    assert_eq!(marked_circle(&production, &[pair_8_9]), both_edges);
    production.edges.remove(0);
    assert_eq!(marked_circle(&production, &[0]), []);
    let pair_first = [marked(8, Mark::Pair), marked(9, Mark::Edge)];
    assert_eq!(marked_circle(&production, &[pair_8_9]), pair_first);
}

/// The edges of a production and the pairs of its subtrees, as nodes.
fn edges_and_pairs(production: &Production, graphs: &[u64]) -> [BTreeSet<(usize, usize)>; 2] {
    let edges = production.edges.iter().map(ends).collect();
    let mut placed = BTreeSet::new();
    for (slot, &graph) in graphs.iter().enumerate() {
        let first = 8 * (slot + 1);
        placed.extend(pairs(graph).iter().map(|(a, b)| (first + a, first + b)));
    }
    [edges, placed]
}

/// Whether a node is a synthesized attribute of a right occurrence.
fn is_right_synthesized(grammar: &Grammar, production: &Production, node: usize) -> bool {
    inherited(grammar, production, node / 8, node % 8) == Some(false) && node >= 8
}

/// The graphs of these entries.
fn graphs(outcome: &Outcome, production: &Production, kids: &[usize]) -> Vec<u64> {
    let kids = kids[..production.right.len()].iter();
    kids.map(|&entry| outcome.stored[entry].graph).collect()
}

/// No link is both, because only pairs end in a synthesized attribute of a
/// right occurrence. All of them do.
fn never_both(grammar: &Grammar, outcome: &Outcome, number: usize, kids: &[usize]) {
    let production = &grammar.productions[number];
    let graphs = graphs(outcome, production, kids);
    let [edges, pairs] = edges_and_pairs(production, &graphs);
    let ends_there = |&(_, to): &(usize, usize)| is_right_synthesized(grammar, production, to);
    assert!(pairs.iter().all(ends_there));
    assert!(!edges.iter().any(ends_there));
    assert!(edges.is_disjoint(&pairs));
}

/// The circle of a circular answer and its marks. Where a pair follows a pair
/// the subtree has the pair of their ends too, so no shortest circle has both.
/// Nothing leads to an inherited attribute of the left symbol.
fn marks_hold(grammar: &Grammar, outcome: &Outcome) {
    let root = &grammar.productions[outcome.root_production];
    let graphs = graphs(outcome, root, &outcome.root_kids);
    let [edges, pairs] = edges_and_pairs(root, &graphs);
    for (link, next) in around(&outcome.circle) {
        let ends = (link.node, next.node);
        assert_eq!(edges.contains(&ends), link.mark == Mark::Edge);
        assert_eq!(pairs.contains(&ends), link.mark == Mark::Pair);
        assert!(link.mark == Mark::Edge || next.mark == Mark::Edge);
        let is_inherited = inherited(grammar, root, link.node / 8, link.node % 8);
        assert!(is_inherited == Some(false) || link.node >= 8);
    }
}

fn nodes(outcome: &Outcome) -> Vec<usize> {
    outcome.circle.iter().map(|link| link.node).collect()
}

/// A taken table of any kind, or one with a circle of any length.
fn any_table(seed: u64) -> Vec<u8> {
    match seed % 4 {
        0 => make::ring(seed),
        _ => make::valid(seed),
    }
}

#[test]
fn circles_of_tables() {
    let (mut circular, mut others, mut marks) = (0, 0, [0; 2]);
    for seed in 0..2500 {
        let grammar = read(&any_table(seed)).unwrap();
        let (limit, room) = make::limits(seed);
        let outcome = run_grammar(&grammar, limit, room);
        for entry in &outcome.stored {
            never_both(&grammar, &outcome, entry.production, &entry.kids);
        }
        if outcome.answer != Answer::Circular {
            assert!(outcome.circle.is_empty(), "seed {seed}");
            others += 1;
            continue;
        }
        let (root, kids) = (outcome.root_production, &outcome.root_kids);
        never_both(&grammar, &outcome, root, kids);
        marks_hold(&grammar, &outcome);
        let links = root_links(&grammar, &outcome);
        assert_eq!(nodes(&outcome), by_distances(&links), "seed {seed}");
        circular += 1;
        for link in &outcome.circle {
            marks[usize::from(link.mark == Mark::Pair)] += 1;
        }
    }
    assert!(circular > 600 && others > 600, "{circular} {others}");
    assert!(marks.iter().all(|&count| count > 2000), "{marks:?}");
}

/// Every answer but circular has an empty circle, refusals too, though the
/// same table with more limit or room is circular.
#[test]
fn no_circle_without_circular() {
    let b = write(&known::b());
    assert_eq!(run(&b, 3, 2).circle.len(), 4);
    for (limit, room) in [(2, 2), (3, 1), (1, 1), (0, 0)] {
        let outcome = run(&b, limit, room);
        assert_ne!(outcome.answer, Answer::Circular);
        assert_eq!(outcome.circle, []);
        assert!(!report(&b, limit, room).contains("circle"));
    }
    assert_eq!(run(&b[..23], 3, 2).circle, []);
    assert_eq!(run(&b[..111], 3, 2).circle, []);
    assert_eq!(run(&write(&known::a()), 10, 3).circle, []);
    assert_eq!(run(&write(&known::c()), 10, 3).circle, []);
}

/// The last two lines, the root's and the circle's.
fn holds_at_the_end(grammar: &Grammar, root: &str, circle: &str) {
    let printed = report(&write(grammar), 1_000_000, 1_024);
    let wanted = format!("\nroot production {root}\ncircle {circle}\n");
    assert!(printed.ends_with(&wanted), "{printed}");
}

#[test]
fn circles_of_known_grammars() {
    holds_at_the_end(&known::b(), "0 kids 0", "8 pair 10 edge 9 pair 11 edge");
    let figure_1 = known::figure_1_circular();
    holds_at_the_end(&figure_1, "0 kids 0 1", "8 edge 9 pair");
    holds_at_the_end(&known::starved_circular(), "12 kids", "0 edge");
    holds_at_the_end(&known::chain_circular(), "0 kids", "0 edge");
    holds_at_the_end(&known::full(), "511 kids 255", "11 pair 15 edge");
    let ties = "8 pair 11 edge 16 pair 18 edge";
    holds_at_the_end(&known::ties(), "0 kids 0 0 0", ties);
    let ring = "0 edge 1 edge \
                56 pair 60 edge 48 pair 52 edge 40 pair 44 edge 32 pair 36 edge \
                24 pair 28 edge 16 pair 20 edge 8 pair 12 edge 2 edge 3 edge \
                57 pair 61 edge 49 pair 53 edge 41 pair 45 edge 33 pair 37 edge \
                25 pair 29 edge 17 pair 21 edge 9 pair 13 edge 4 edge 5 edge \
                58 pair 62 edge 50 pair 54 edge 42 pair 46 edge 34 pair 38 edge \
                26 pair 30 edge 18 pair 22 edge 10 pair 14 edge 6 edge 7 edge \
                59 pair 63 edge 51 pair 55 edge 43 pair 47 edge 35 pair 39 edge \
                27 pair 31 edge 19 pair 23 edge 11 pair 15 edge";
    holds_at_the_end(&known::ring(), "0 kids 0 0 0 0 0 0 0", ring);
}

/// What the comments on these two say of their circles.
#[test]
fn ring_and_ties() {
    let links = |grammar: &Grammar| {
        let outcome = run_grammar(grammar, 100, 100);
        root_links(grammar, &outcome)
    };
    let ring = links(&known::ring());
    assert_eq!(all_circles(&ring).len(), 1);
    assert_eq!(shortest_circle(&ring).unwrap().len(), MOST_NODES);

    let ties = links(&known::ties());
    let mut shortest = all_circles(&ties);
    shortest.retain(|circle| circle.len() <= 4);
    shortest.sort();
    let wanted = [
        [8, 11, 16, 18],
        [8, 11, 16, 19],
        [8, 11, 17, 18],
        [9, 10, 24, 26],
    ];
    assert_eq!(shortest, wanted);
    assert_eq!(shortest_path(&ties, 0, 0).unwrap().len(), 5);
    let mut through_10 = all_circles(&ties);
    through_10.retain(|circle| circle.starts_with(&[8, 10]));
    through_10.sort();
    let wanted = [[8, 10, 24, 27, 16, 18], [8, 10, 24, 27, 16, 19]];
    assert_eq!(through_10, wanted);
    assert!(has_ties(&ties) && is_met_late(&ties));
    assert!(!has_ties(&ring) && !is_met_late(&ring));
}

/// The wanted length, or a longer one that is found before all pairs are
/// there; also in productions of other symbols than the start.
#[test]
fn ring_tables_have_the_wanted_length() {
    let (mut exact, mut ties, mut late, mut below) = (0, 0, 0, 0);
    for length in 1..=MOST_NODES {
        for seed in 0..6 {
            let table = make::ring_of(&mut Random::new(seed), length);
            let grammar = read(&table).unwrap();
            let outcome = run_grammar(&grammar, 1000, 1000);
            assert_eq!(outcome.answer, Answer::Circular);
            assert!(outcome.circle.len() >= length, "{length} seed {seed}");
            exact += usize::from(outcome.circle.len() == length);
            let links = root_links(&grammar, &outcome);
            ties += usize::from(has_ties(&links));
            late += usize::from(is_met_late(&links));
            let root = &grammar.productions[outcome.root_production];
            below += usize::from(root.left != grammar.start);
        }
    }
    // Of 384.
    assert!(exact > 350, "{exact}");
    assert!(ties > 200 && late > 40, "{ties} {late}");
    assert!(below > 80, "{below}");
}
