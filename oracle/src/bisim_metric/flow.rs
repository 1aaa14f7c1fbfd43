//! Network flows on small graphs with real capacities: maximum flow (for
//! the weight-function test of (ε,δ)-bisimulation) and optimal transport
//! between two discrete distributions (for Kantorovich distances).

use std::collections::VecDeque;

/// Flows below this are treated as zero.
const EPS: f64 = 1e-12;

/// A flow network built edge by edge.
#[derive(Debug, Clone)]
pub struct FlowNetwork {
    /// Per node: indices into `edges`.
    // CHANGED: `pub(crate)`, so that the node lists can be compared.
    pub(crate) adj: Vec<Vec<usize>>,
    /// `(to, residual capacity, cost)`; edge `i ^ 1` is the reverse of `i`.
    // CHANGED: `pub(crate)`, so that the capacities left can be compared.
    pub(crate) edges: Vec<(usize, f64, f64)>,
}

// CHANGED: added, the reply of `max_flow` (document 01: "Phases and pushes are reported (added)").
/// A maximum flow, with how it came about.
#[derive(Debug, Clone, Copy, PartialEq)]
pub struct MaxFlow {
    pub flow: f64,
    /// Settings of levels that reach the sink.
    pub phases: usize,
    /// Calls of `augment` that give more than [`EPS`].
    pub pushes: usize,
}

impl FlowNetwork {
    pub fn new(nodes: usize) -> Self {
        Self {
            adj: vec![Vec::new(); nodes],
            edges: Vec::new(),
        }
    }

    /// Adds `from → to` with `capacity` and per-unit `cost`.
    pub fn add_edge(&mut self, from: usize, to: usize, capacity: f64, cost: f64) {
        self.adj[from].push(self.edges.len());
        self.edges.push((to, capacity, cost));
        self.adj[to].push(self.edges.len());
        self.edges.push((from, 0.0, -cost));
    }

    /// Maximum flow from `source` to `sink` (Dinic: BFS levels, blocking
    /// flows by depth-first search with an explicit stack).
    // CHANGED: returns phases and pushes beside the flow.
    pub fn max_flow(&mut self, source: usize, sink: usize) -> MaxFlow {
        let n = self.adj.len();
        let mut total = 0.0;
        let (mut phases, mut pushes) = (0, 0); // CHANGED: counted.
        loop {
            let mut level = vec![usize::MAX; n];
            level[source] = 0;
            let mut queue = VecDeque::from([source]);
            while let Some(u) = queue.pop_front() {
                for &e in &self.adj[u] {
                    let (v, cap, _) = self.edges[e];
                    if cap > EPS && level[v] == usize::MAX {
                        level[v] = level[u] + 1;
                        queue.push_back(v);
                    }
                }
            }
            if level[sink] == usize::MAX {
                // CHANGED: the reply.
                return MaxFlow {
                    flow: total,
                    phases,
                    pushes,
                };
            }
            phases += 1; // CHANGED: counted.
            let mut next = vec![0usize; n];
            loop {
                let pushed = self.augment(source, sink, &level, &mut next);
                if pushed <= EPS {
                    break;
                }
                pushes += 1; // CHANGED: counted.
                total += pushed;
            }
        }
    }

    /// One augmenting path in the level graph; returns the flow pushed.
    fn augment(&mut self, source: usize, sink: usize, level: &[usize], next: &mut [usize]) -> f64 {
        let mut path: Vec<usize> = Vec::new();
        let mut u = source;
        loop {
            if u == sink {
                let pushed = path
                    .iter()
                    .map(|&e| self.edges[e].1)
                    .fold(f64::INFINITY, f64::min);
                for &e in &path {
                    self.edges[e].1 -= pushed;
                    self.edges[e ^ 1].1 += pushed;
                }
                return pushed;
            }
            let mut advanced = false;
            while next[u] < self.adj[u].len() {
                let e = self.adj[u][next[u]];
                let (v, cap, _) = self.edges[e];
                if cap > EPS && level[v] == level[u] + 1 {
                    path.push(e);
                    u = v;
                    advanced = true;
                    break;
                }
                next[u] += 1;
            }
            if !advanced {
                // Dead end: retreat and skip the edge that led here.
                let Some(e) = path.pop() else {
                    return 0.0;
                };
                u = self.edges[e ^ 1].0;
                next[u] += 1;
            }
        }
    }
}

/// An optimal coupling of `a` and `b` (non-negative, equal totals) under
/// `cost[i][j]`: `(total cost, [(i, j, mass)])`. Successive shortest paths
/// with Bellman–Ford, so negative reduced costs need no potentials; meant
/// for supports of a few dozen points.
///
/// # Panics
/// If the totals of `a` and `b` differ by more than `1e-9`.
pub fn transport(a: &[f64], b: &[f64], cost: &[Vec<f64>]) -> (f64, Vec<(usize, usize, f64)>) {
    let (m, n) = (a.len(), b.len());
    let (ta, tb): (f64, f64) = (a.iter().sum(), b.iter().sum());
    assert!(
        (ta - tb).abs() <= 1e-9 * ta.max(1.0),
        "unequal masses {ta} and {tb}"
    );
    // Nodes: source, a-side 0..m, b-side m..m+n, sink.
    let (source, sink) = (m + n, m + n + 1);
    let mut net = FlowNetwork::new(m + n + 2);
    for (i, &ai) in a.iter().enumerate() {
        net.add_edge(source, i, ai, 0.0);
    }
    for (j, &bj) in b.iter().enumerate() {
        net.add_edge(m + j, sink, bj, 0.0);
    }
    let first_pair = net.edges.len();
    for (i, row) in cost.iter().enumerate().take(m) {
        for (j, &c) in row.iter().enumerate().take(n) {
            net.add_edge(i, m + j, f64::INFINITY, c);
        }
    }
    let mut remaining = ta.min(tb);
    let nodes = m + n + 2;
    // Each augmentation saturates a supply, a demand or a residual edge, so
    // a correct run needs far fewer rounds than this; the cap (and the path
    // length check below) only guards against rounding making a negative
    // cycle, where the shortest-path tree would loop.
    let mut rounds = 0;
    while remaining > EPS * ta.max(1.0) && rounds < 4 * (m * n + m + n) + 16 {
        rounds += 1;
        // Bellman–Ford shortest path in the residual graph.
        let mut dist = vec![f64::INFINITY; nodes];
        let mut via = vec![usize::MAX; nodes];
        dist[source] = 0.0;
        for _ in 0..nodes {
            let mut changed = false;
            for u in 0..nodes {
                if dist[u].is_infinite() {
                    continue;
                }
                for &e in &net.adj[u] {
                    let (v, cap, c) = net.edges[e];
                    if cap > EPS && dist[u] + c < dist[v] - 1e-15 {
                        dist[v] = dist[u] + c;
                        via[v] = e;
                        changed = true;
                    }
                }
            }
            if !changed {
                break;
            }
        }
        if dist[sink].is_infinite() {
            break;
        }
        let mut push = remaining;
        let mut v = sink;
        let mut length = 0;
        while v != source && length <= nodes {
            let e = via[v];
            push = push.min(net.edges[e].1);
            v = net.edges[e ^ 1].0;
            length += 1;
        }
        if v != source || push <= EPS {
            // A cycle in the tree (rounding) or nothing left to push.
            break;
        }
        let mut v = sink;
        while v != source {
            let e = via[v];
            net.edges[e].1 -= push;
            net.edges[e ^ 1].1 += push;
            v = net.edges[e ^ 1].0;
        }
        remaining -= push;
    }
    let mut plan = Vec::new();
    let mut total = 0.0;
    for (i, row) in cost.iter().enumerate().take(m) {
        for (j, &c) in row.iter().enumerate().take(n) {
            let e = first_pair + 2 * (i * n + j);
            let mass = net.edges[e ^ 1].1;
            if mass > EPS {
                plan.push((i, j, mass));
                total += mass * c;
            }
        }
    }
    (total, plan)
}

