// The same operations as crates/ranges_bench, on a plain pre-order lazy tree without the array of recent gaps (mode "tree") and on a
// bottom-up tree of the usual kind (mode "flat"). mkdir -p target; rustc -O -o target/ranges_rs bench/ranges.rs; target/ranges_rs MODE HEIGHT ROUNDS REACH

#[derive(Clone, Copy, Default)]
struct Node {
    peak: u8, // one more than the highest occupancy; 0 where there are no gaps
    pending: u8,
    gaps: u32,
    sum: u32,
}

fn join(a: Node, b: Node, pending: u8) -> Node {
    let peak = a.peak.max(b.peak);
    let gaps = a.gaps + b.gaps;
    Node { peak: if peak == 0 { 0 } else { peak + pending }, pending, gaps, sum: a.sum + b.sum + pending as u32 * gaps }
}

fn lift(n: &mut Node) {
    if n.peak > 0 {
        n.peak += 1;
    }
    n.pending += 1;
    n.sum += n.gaps;
}

trait Ranges {
    fn new(height: u32) -> Self;
    fn clear(&mut self);
    fn push(&mut self);
    fn ask(&self, from: usize, to: usize) -> Node;
    fn raise(&mut self, from: usize, to: usize);
}

// A recursive tree whose halves lie one after the other, with every gap in it.
struct Pre {
    nodes: Vec<Node>,
    count: usize,
}

fn pre_put(nodes: &mut [Node], n: usize) {
    let half = nodes.len() / 2;
    if half == 0 {
        nodes[0] = Node { peak: 1, pending: 0, gaps: 1, sum: 0 };
        return;
    }
    let room = half / 2 + 1;
    if n < room { pre_put(&mut nodes[1..half + 1], n) } else { pre_put(&mut nodes[half + 1..], n - room) }
    nodes[0] = join(nodes[1], nodes[half + 1], 0);
}

fn pre_ask(nodes: &[Node], n: usize, a: usize, b: usize) -> Node {
    if b <= a || n <= a {
        return Node::default();
    }
    if a == 0 && n <= b {
        return nodes[0];
    }
    let half = nodes.len() / 2;
    let room = half / 2 + 1;
    let l = pre_ask(&nodes[1..half + 1], n.min(room), a, b);
    let r = pre_ask(&nodes[half + 1..], n.saturating_sub(room), a.saturating_sub(room), b.saturating_sub(room));
    join(l, r, nodes[0].pending)
}

fn pre_raise(nodes: &mut [Node], a: usize, b: usize) {
    if b <= a {
        return;
    }
    let half = nodes.len() / 2;
    if a == 0 && half < b {
        lift(&mut nodes[0]);
        return;
    }
    let room = half / 2 + 1;
    pre_raise(&mut nodes[1..half + 1], a, b.min(room));
    pre_raise(&mut nodes[half + 1..], a.saturating_sub(room), b.saturating_sub(room));
    nodes[0] = join(nodes[1], nodes[half + 1], nodes[0].pending);
}

impl Ranges for Pre {
    fn new(height: u32) -> Pre {
        Pre { nodes: vec![Node::default(); (2 << height) - 1], count: 0 }
    }
    fn clear(&mut self) {
        self.nodes.fill(Node::default());
        self.count = 0;
    }
    fn push(&mut self) {
        pre_put(&mut self.nodes, self.count);
        self.count += 1;
    }
    fn ask(&self, from: usize, to: usize) -> Node {
        pre_ask(&self.nodes, self.count, from, to)
    }
    fn raise(&mut self, from: usize, to: usize) {
        pre_raise(&mut self.nodes, from, to)
    }
}

// A bottom-up tree: node i has the children 2i and 2i + 1, and what is pending at a node is never pushed down.
struct Flat {
    nodes: Vec<Node>,
    size: usize,
    count: usize,
}

impl Flat {
    fn mend(&mut self, mut i: usize) {
        while i > 1 {
            i /= 2;
            self.nodes[i] = join(self.nodes[2 * i], self.nodes[2 * i + 1], self.nodes[i].pending);
        }
    }
}

impl Ranges for Flat {
    fn new(height: u32) -> Flat {
        Flat { nodes: vec![Node::default(); 2 << height], size: 1 << height, count: 0 }
    }
    fn clear(&mut self) {
        self.nodes.fill(Node::default());
        self.count = 0;
    }
    fn push(&mut self) {
        let i = self.size + self.count;
        // what is pending above a free leaf belongs to its neighbours only: stretches end at the newest gap, so none is
        self.nodes[i] = Node { peak: 1, pending: 0, gaps: 1, sum: 0 };
        self.count += 1;
        self.mend(i);
    }
    fn ask(&self, from: usize, to: usize) -> Node {
        let (mut l, mut r) = (from + self.size, to + self.size);
        if r <= l {
            return Node::default();
        }
        let (mut left, mut right) = (Node::default(), Node::default());
        let (mut lp, mut rp) = (l, r - 1);
        while l < r {
            if l & 1 == 1 {
                left = join(left, self.nodes[l], 0);
                l += 1;
            }
            if r & 1 == 1 {
                r -= 1;
                right = join(self.nodes[r], right, 0);
            }
            l /= 2;
            r /= 2;
            lp /= 2;
            rp /= 2;
            left = join(left, Node::default(), self.nodes[lp].pending);
            right = join(right, Node::default(), self.nodes[rp].pending);
        }
        while lp > 1 {
            lp /= 2;
            rp /= 2;
            left = join(left, Node::default(), self.nodes[lp].pending);
            right = join(right, Node::default(), self.nodes[rp].pending);
        }
        join(left, right, 0)
    }
    fn raise(&mut self, from: usize, to: usize) {
        let (mut l, mut r) = (from + self.size, to + self.size);
        if r <= l {
            return;
        }
        let (first, last) = (l, r - 1);
        while l < r {
            if l & 1 == 1 {
                lift(&mut self.nodes[l]);
                l += 1;
            }
            if r & 1 == 1 {
                r -= 1;
                lift(&mut self.nodes[r]);
            }
            l /= 2;
            r /= 2;
        }
        self.mend(first);
        self.mend(last);
    }
}

fn measure<R: Ranges>(height: u32, rounds: u32, reach: usize) -> (u64, u64, u64) {
    let slots = 1usize << height;
    let mut plan = Vec::new();
    let mut seed = 1u32;
    for count in 0..slots {
        seed = seed.wrapping_mul(1664525).wrapping_add(1013904223);
        let back = (seed >> 8) as usize % reach.max(1);
        plan.push(count.saturating_sub(back));
    }
    let mut set = R::new(height);
    let (mut done, mut refused, mut load) = (0u64, 0u64, 0u64);
    for _ in 0..rounds {
        set.clear();
        for (count, &from) in plan.iter().enumerate() {
            load += set.ask(from, count).sum as u64;
            if set.ask(from, count).peak <= 16 {
                set.raise(from, count);
                done += 2;
            } else {
                done += 1;
                refused += 1;
            }
            set.push();
        }
    }
    (done, refused, load)
}

fn main() {
    let args: Vec<String> = std::env::args().collect();
    let number = |i: usize, d: u32| args.get(i).and_then(|x| x.parse().ok()).unwrap_or(d);
    let (height, rounds, reach) = (number(2, 10), number(3, 1), number(4, 8));
    let (done, refused, load) = match args.get(1).map(|s| s.as_str()) {
        Some("flat") => measure::<Flat>(height, rounds, reach as usize),
        _ => measure::<Pre>(height, rounds, reach as usize),
    };
    println!("height {height}, {rounds} rounds, stretches below {reach}: {done} done, {refused} refused, load {load}");
}
