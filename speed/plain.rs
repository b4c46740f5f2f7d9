//! The bench in plain Rust: what one would write without proofs. A trial file on standard input, document 01's lines on standard output.
//! In place, no dependency, no unsafe. It is the yardstick of speed and a third opinion on answers; nothing is proved of it.
use std::io::{Read, Write};

const MAX_NODES: usize = 64;
const MAX_LINKS: usize = 128;

struct Refused(u32, usize);

#[derive(Default)]
struct Plan {
    rounds: u16,
    parent: Vec<u8>,
    start: Vec<u16>,
    links: Vec<(u8, u8, u8)>,
}

/// Document 01, answers 1 to 5, record by record; the number of bytes the plan took.
fn read_plan(bytes: &[u8]) -> Result<(Plan, usize), Refused> {
    let mut plan = Plan::default();
    let mut at = 0;
    loop {
        let Some(&kind) = bytes.get(at) else { return Err(Refused(3, bytes.len())) };
        let length = match kind {
            0 => 0,
            1 => 2,
            2 => 4,
            3 => 3,
            _ => return Err(Refused(1, at)),
        };
        let Some(body) = bytes.get(at + 1..at + 1 + length) else { return Err(Refused(2, at)) };
        let begun = plan.rounds != 0;
        let nodes = plan.parent.len();
        match kind {
            0 => return if begun && nodes > 0 { Ok((plan, at + 1)) } else { Err(Refused(3, at)) },
            1 => {
                let rounds = u16::from_be_bytes([body[0], body[1]]);
                if begun {
                    return Err(Refused(3, at));
                }
                if rounds == 0 || rounds > 10_000 {
                    return Err(Refused(5, at));
                }
                plan.rounds = rounds;
            }
            2 => {
                if !begun || !plan.links.is_empty() || body[0] as usize != nodes {
                    return Err(Refused(3, at));
                }
                if nodes == MAX_NODES {
                    return Err(Refused(4, at));
                }
                plan.parent.push(body[1]);
                plan.start.push(u16::from_be_bytes([body[2], body[3]]));
            }
            _ => {
                let (a, b, flag) = (body[0], body[1], body[2]);
                if !begun || nodes == 0 || plan.links.last().is_some_and(|l| (l.0, l.1) >= (a, b)) {
                    return Err(Refused(3, at));
                }
                if plan.links.len() == MAX_LINKS {
                    return Err(Refused(4, at));
                }
                if a >= b || b as usize >= nodes || flag > 1 {
                    return Err(Refused(5, at));
                }
                plan.links.push((a, b, flag));
            }
        }
        at += 1 + length;
    }
}

struct Network {
    nodes: usize,
    rounds: u16,
    parent: Vec<usize>,
    /// for each ordered pair, 64 p + q: the direction, or NONE
    lane: Vec<u16>,
    neighbours: Vec<Vec<usize>>,
    children: Vec<Vec<usize>>,
    preferred: Vec<u64>,
}

const NONE: u16 = u16::MAX;

/// Document 01, answers 6 to 10, over the whole plan.
fn check_plan(plan: &Plan) -> Result<Network, Refused> {
    let nodes = plan.parent.len();
    let mut lane = vec![NONE; MAX_NODES * MAX_NODES];
    let mut neighbours = vec![Vec::new(); nodes];
    let mut preferred = vec![0u64; nodes];
    for (l, &(a, b, flag)) in plan.links.iter().enumerate() {
        let (a, b) = (a as usize, b as usize);
        lane[a * MAX_NODES + b] = 2 * l as u16;
        lane[b * MAX_NODES + a] = 2 * l as u16 + 1;
        neighbours[a].push(b);
        neighbours[b].push(a);
        if flag == 1 {
            preferred[a] |= 1 << b;
            preferred[b] |= 1 << a;
        }
    }
    let parent: Vec<usize> = plan.parent.iter().map(|&p| p as usize).collect();
    for p in 0..nodes {
        let up = parent[p];
        if up != p && (up >= nodes || lane[p * MAX_NODES + up] == NONE) {
            return Err(Refused(6, p));
        }
    }
    let mut root = vec![0; nodes];
    for p in 0..nodes {
        let mut at = p;
        for _ in 0..nodes {
            at = parent[at];
        }
        if parent[at] != at {
            return Err(Refused(7, p));
        }
        root[p] = at;
    }
    let ends = |l: usize| (root[plan.links[l].0 as usize], root[plan.links[l].1 as usize]);
    for (l, link) in plan.links.iter().enumerate() {
        let (a, b) = ends(l);
        if link.2 == 1 && a == b {
            return Err(Refused(8, l));
        }
    }
    for l in 0..plan.links.len() {
        let (a, b) = ends(l);
        let joining = |k: usize| ends(k) == (a, b) || ends(k) == (b, a);
        let chosen = (0..plan.links.len()).filter(|&k| plan.links[k].2 == 1 && joining(k)).count();
        if a != b && chosen != 1 {
            return Err(Refused(9, l));
        }
    }
    let mut reached = 1u64;
    let mut waiting = vec![0];
    while let Some(p) = waiting.pop() {
        for &q in &neighbours[p] {
            if reached >> q & 1 == 0 {
                reached |= 1 << q;
                waiting.push(q);
            }
        }
    }
    if let Some(p) = (0..nodes).find(|p| reached >> p & 1 == 0) {
        return Err(Refused(10, p));
    }
    let mut children = vec![Vec::new(); nodes];
    for p in 0..nodes {
        if parent[p] != p {
            children[parent[p]].push(p);
        }
    }
    Ok(Network { nodes, rounds: plan.rounds, parent, lane, neighbours, children, preferred })
}

#[derive(Clone, Copy, Default)]
struct Message {
    packet: bool,
    value: u16,
}

#[derive(Clone, Copy, Default)]
struct Queue {
    length: u8,
    waiting: [Message; 2],
}

impl Queue {
    fn front(&self) -> Option<Message> {
        (self.length > 0).then_some(self.waiting[0])
    }

    fn push(&mut self, message: Message) {
        self.waiting[self.length as usize] = message;
        self.length += 1;
    }

    fn pop(&mut self) {
        self.waiting[0] = self.waiting[1];
        self.length -= 1;
    }
}

#[derive(Clone, Copy, Default)]
struct Node {
    /// by kind minus 16, kinds of one node
    count: [u16; 20],
    value: u16,
}

#[derive(Clone, Copy, Default)]
struct Lane {
    /// by kind minus 16, kinds of two nodes
    count: [u16; 20],
    queue: Queue,
    slot: [u16; 2],
}

struct State {
    node: Vec<Node>,
    lane: Vec<Lane>,
}

const BODY: [usize; 20] = [1, 2, 2, 2, 2, 1, 1, 1, 1, 1, 1, 2, 2, 1, 1, 1, 1, 1, 1, 1];

impl State {
    fn node_has(&self, kind: usize, p: usize) -> u16 {
        self.node[p].count[kind - 16]
    }

    fn knows(&self, net: &Network, p: usize) -> u16 {
        self.node_has(if net.parent[p] == p { 24 } else { 26 }, p)
    }

    fn may_go(&self, net: &Network, p: usize) -> u16 {
        self.node_has(if net.parent[p] == p { 31 } else { 33 }, p)
    }

    /// Document 01's last column: 0 where the action at p, and along d (back along e), is taken.
    fn refusal(&self, net: &Network, kind: usize, p: usize, d: usize, e: usize) -> u32 {
        let done = if BODY[kind - 16] == 1 { self.node_has(kind, p) } else { self.lane[d].count[kind - 16] };
        let has = |count: u16| count > done;
        let lane_has = |kind: usize, d: usize| has(self.lane[d].count[kind - 16]);
        let front = || self.lane[d].queue.front();
        let children = |kind: usize| net.children[p].iter().all(|&c| has(self.node_has(kind, c)));
        let into = |q: usize| net.lane[q * MAX_NODES + p] as usize;
        let met = match kind {
            16 => {
                if done >= net.rounds {
                    return 15;
                }
                self.node_has(35, p) >= done
            }
            17 => has(self.node_has(16, p)),
            18 => lane_has(17, d) && front().is_some_and(|m| m.packet),
            19 => lane_has(18, e),
            20 => lane_has(19, d) && front().is_some_and(|m| !m.packet),
            21 => has(self.node_has(16, p)) && net.neighbours[p].iter().all(|&q| lane_has(20, into(q))),
            22 | 24 => has(self.node_has(21, p)) && children(23),
            25 => has(self.knows(net, net.parent[p])),
            27 => has(self.knows(net, p)),
            29 | 31 => {
                has(self.knows(net, p))
                    && children(30)
                    && net.neighbours[p].iter().all(|&q| net.preferred[p] >> q & 1 == 0 || lane_has(28, into(q)))
            }
            32 => has(self.may_go(net, net.parent[p])),
            34 => has(self.may_go(net, p)),
            28 => lane_has(27, d),
            _ => has(self.node_has(kind - 1, p)),
        };
        if !met {
            16
        } else if (kind == 17 || kind == 19) && self.lane[d].queue.length == 2 {
            18
        } else {
            0
        }
    }

    fn take(&mut self, net: &Network, kind: usize, p: usize, d: usize) {
        let count = if BODY[kind - 16] == 1 { &mut self.node[p].count } else { &mut self.lane[d].count };
        count[kind - 16] += 1;
        let parity = count[kind - 16] as usize % 2;
        match kind {
            17 => {
                let value = self.node[p].value;
                self.lane[d].queue.push(Message { packet: true, value });
            }
            19 => self.lane[d].queue.push(Message { packet: false, value: 0 }),
            18 => {
                self.lane[d].slot[parity] = self.lane[d].queue.waiting[0].value;
                self.lane[d].queue.pop();
            }
            20 => self.lane[d].queue.pop(),
            35 => {
                let heard = |&q: &usize| self.lane[net.lane[q * MAX_NODES + p] as usize].slot[parity] as u32;
                let sum: u32 = self.node[p].value as u32 + net.neighbours[p].iter().map(heard).sum::<u32>();
                self.node[p].value = nearest(sum, 1 + net.neighbours[p].len() as u32);
            }
            _ => {}
        }
    }
}

/// Document 02, W3: to the nearest whole number, a half going to the even one. A half goes up first, and then down again from an odd number.
fn nearest(sum: u32, count: u32) -> u16 {
    let doubled = 2 * sum + count;
    let up = doubled / (2 * count);
    let half = doubled % (2 * count) == 0;
    (up - (up & half as u32)) as u16
}

/// One record: the bytes read, or the answer that refuses it.
fn act(net: &Network, state: &mut State, bytes: &[u8]) -> Result<usize, u32> {
    let kind = bytes[0] as usize;
    if !(16..=35).contains(&kind) {
        return Err(11);
    }
    let length = BODY[kind - 16];
    let Some(body) = bytes.get(1..1 + length) else { return Err(12) };
    let (p, q) = (body[0] as usize, body[length - 1] as usize);
    if p >= net.nodes || q >= net.nodes {
        return Err(13);
    }
    let d = net.lane[p * MAX_NODES + q];
    let root = net.parent[p] == p;
    let stands = match kind {
        17..=20 => d != NONE,
        27 | 28 => net.preferred[p] >> q & 1 == 1,
        22 | 23 | 25 | 26 | 29 | 30 | 32 | 33 => !root,
        24 | 31 => root,
        _ => true,
    };
    if !stands {
        return Err(14);
    }
    match state.refusal(net, kind, p, d as usize, net.lane[q * MAX_NODES + p] as usize) {
        0 => {
            state.take(net, kind, p, d as usize);
            Ok(1 + length)
        }
        answer => Err(answer),
    }
}

pub fn trial(bytes: &[u8], out: &mut String) {
    use std::fmt::Write;
    if bytes.len() > 65_536 {
        out.push_str("end 19 65536\n");
        return;
    }
    let (plan, taken_by_plan, net) = match read_plan(bytes).and_then(|(plan, n)| check_plan(&plan).map(|net| (plan, n, net))) {
        Ok(read) => read,
        Err(Refused(number, place)) => {
            let _ = writeln!(out, "end {number} {place}");
            return;
        }
    };
    let mut state = State {
        node: plan.start.iter().map(|&value| Node { value, ..Node::default() }).collect(),
        lane: vec![Lane::default(); 2 * plan.links.len()],
    };
    let (mut at, mut taken, mut answer) = (taken_by_plan, 0, 0);
    while at < bytes.len() {
        match act(&net, &mut state, &bytes[at..]) {
            Ok(read) => {
                at += read;
                taken += 1;
            }
            Err(number) => {
                answer = number;
                break;
            }
        }
    }
    let clusters = (0..net.nodes).filter(|&p| net.parent[p] == p).count();
    let _ = writeln!(out, "plan {} {} {} {}", net.nodes, plan.links.len(), clusters, net.rounds);
    for (p, node) in state.node.iter().enumerate() {
        let _ = writeln!(out, "node {p} {} {} {}", node.count[0], node.count[19], node.value);
    }
    let _ = writeln!(out, "taken {taken}\nend {answer} {at}");
}

#[allow(dead_code)]
fn main() -> std::io::Result<()> {
    let mut bytes = Vec::new();
    std::io::stdin().take(65_537).read_to_end(&mut bytes)?;
    let mut out = String::new();
    trial(&bytes, &mut out);
    std::io::stdout().write_all(out.as_bytes())
}
