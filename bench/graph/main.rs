//! The same steps as the bench of the graph, over a `Vec` and std's `HashMap`.
use std::collections::HashMap;

#[derive(Clone, Copy, PartialEq, Eq, Hash, Debug)]
#[allow(dead_code)]
enum Node {
    Flag(bool),
    Word(i64),
    HoleBit(u32, u32),
    HoleWord(u32),
    InputBit(u32),
    InputWord(u32),
    Not(usize),
    And(usize, usize),
    Or(usize, usize),
    Xor(usize, usize),
    BoolMux(usize, usize, usize),
    Mux(usize, usize, usize),
    Add(usize, usize),
    Sub(usize, usize),
    Mul(usize, usize),
    Div(usize, usize),
    Rem(usize, usize),
    Lt(usize, usize),
    Eq(usize, usize),
    CostZero,
    CostAdd(usize, usize, usize),
    CostLe(usize, u64),
}
use Node::*;

#[derive(Clone, Copy)]
enum Value {
    Bit(bool),
    Int(i64),
    Cost(u64),
}

fn int(v: Value) -> i64 {
    if let Value::Int(z) = v { z } else { 0 }
}

fn bit(v: Value) -> bool {
    if let Value::Bit(b) = v { b } else { false }
}

fn cost(v: Value) -> u64 {
    if let Value::Cost(c) = v { c } else { 0 }
}

fn wrap(bits: u32, z: i64) -> i64 {
    let half = 1i64 << (bits - 1);
    let m = z.rem_euclid(2 * half);
    if m < half { m } else { m - 2 * half }
}

struct Env {
    choice: Vec<u64>,
    input: Vec<i64>,
}

#[derive(Default)]
struct Dag {
    bits: u32,
    nodes: Vec<Node>,
    table: HashMap<Node, usize>,
}

impl Dag {
    fn new(bits: u32) -> Dag {
        Dag { bits, ..Dag::default() }
    }

    fn intern(&mut self, node: Node) -> usize {
        if let Some(i) = self.table.get(&node) {
            return *i;
        }
        let i = self.nodes.len();
        self.nodes.push(node);
        self.table.insert(node, i);
        i
    }

    fn children(node: &Node) -> [Option<usize>; 3] {
        match *node {
            Flag(_) | Word(_) | HoleBit(..) | HoleWord(_) | InputBit(_) | InputWord(_) | CostZero => [None; 3],
            Not(a) | CostLe(a, _) => [Some(a), None, None],
            And(a, b) | Or(a, b) | Xor(a, b) | Add(a, b) | Sub(a, b) | Mul(a, b) | Div(a, b) | Rem(a, b) | Lt(a, b)
            | Eq(a, b) => [Some(a), Some(b), None],
            BoolMux(a, b, c) | Mux(a, b, c) | CostAdd(a, b, c) => [Some(a), Some(b), Some(c)],
        }
    }

    fn value_of(&self, node: &Node, env: &Env, at: impl Fn(usize) -> Value) -> Value {
        let w = self.bits;
        match *node {
            Flag(b) => Value::Bit(b),
            Word(z) => Value::Int(z),
            HoleBit(s, k) => Value::Bit(env.choice.get(s as usize).copied().unwrap_or(0) >> k & 1 == 1),
            HoleWord(s) => Value::Int(wrap(w, env.choice.get(s as usize).copied().unwrap_or(0) as i64)),
            InputBit(i) => Value::Bit(env.input.get(i as usize).copied().unwrap_or(0) != 0),
            InputWord(i) => Value::Int(wrap(w, env.input.get(i as usize).copied().unwrap_or(0))),
            Not(a) => Value::Bit(!bit(at(a))),
            And(a, b) => Value::Bit(bit(at(a)) && bit(at(b))),
            Or(a, b) => Value::Bit(bit(at(a)) || bit(at(b))),
            Xor(a, b) => Value::Bit(bit(at(a)) != bit(at(b))),
            BoolMux(c, a, b) => Value::Bit(bit(at(if bit(at(c)) { a } else { b }))),
            Mux(c, a, b) => Value::Int(int(at(if bit(at(c)) { a } else { b }))),
            Add(a, b) => Value::Int(wrap(w, int(at(a)) + int(at(b)))),
            Sub(a, b) => Value::Int(wrap(w, int(at(a)) - int(at(b)))),
            Mul(a, b) => Value::Int(wrap(w, int(at(a)) * int(at(b)))),
            Div(a, b) => Value::Int(wrap(w, int(at(a)).checked_div(int(at(b))).unwrap_or(0))),
            Rem(a, b) => Value::Int(wrap(w, int(at(a)).checked_rem(int(at(b))).unwrap_or(0))),
            Lt(a, b) => Value::Bit(int(at(a)) < int(at(b))),
            Eq(a, b) => Value::Bit(int(at(a)) == int(at(b))),
            CostZero => Value::Cost(0),
            CostAdd(c, g, x) => Value::Cost(if bit(at(g)) && int(at(x)) > 0 {
                cost(at(c)).saturating_add(int(at(x)) as u64)
            } else {
                cost(at(c))
            }),
            CostLe(c, n) => Value::Bit(cost(at(c)) <= n),
        }
    }

    // The nodes below the root, by a table of values and a stack, if they are few; else all up to it, in order.
    fn eval_bool(&self, root: usize, env: &Env) -> bool {
        if let Some(v) = self.value_below(root, env, root / 8) {
            return bit(v);
        }
        let mut values = Vec::with_capacity(root + 1);
        for node in &self.nodes[..=root] {
            let v = self.value_of(node, env, |i| values[i]);
            values.push(v);
        }
        bit(values[root])
    }

    fn value_below(&self, root: usize, env: &Env, steps: usize) -> Option<Value> {
        let mut values: HashMap<usize, Value> = HashMap::new();
        let mut stack = vec![root];
        for _ in 0..steps {
            let Some(&i) = stack.last() else { break };
            if values.contains_key(&i) {
                stack.pop();
                continue;
            }
            let before = stack.len();
            for child in Dag::children(&self.nodes[i]).into_iter().flatten() {
                if !values.contains_key(&child) {
                    stack.push(child);
                }
            }
            if stack.len() == before {
                let v = self.value_of(&self.nodes[i], env, |k| values[&k]);
                values.insert(i, v);
                stack.pop();
            }
        }
        values.get(&root).copied()
    }

    fn reached(&self, root: usize) -> Vec<bool> {
        let mut marks = vec![false; self.nodes.len()];
        marks[root] = true;
        for i in (0..self.nodes.len()).rev() {
            if marks[i] {
                for child in Dag::children(&self.nodes[i]).into_iter().flatten() {
                    marks[child] = true;
                }
            }
        }
        marks
    }

    fn renumbered(node: Node, new: &[usize]) -> Node {
        match node {
            Not(a) => Not(new[a]),
            CostLe(a, n) => CostLe(new[a], n),
            And(a, b) => And(new[a], new[b]),
            Or(a, b) => Or(new[a], new[b]),
            Xor(a, b) => Xor(new[a], new[b]),
            Add(a, b) => Add(new[a], new[b]),
            Sub(a, b) => Sub(new[a], new[b]),
            Mul(a, b) => Mul(new[a], new[b]),
            Div(a, b) => Div(new[a], new[b]),
            Rem(a, b) => Rem(new[a], new[b]),
            Lt(a, b) => Lt(new[a], new[b]),
            Eq(a, b) => Eq(new[a], new[b]),
            BoolMux(c, a, b) => BoolMux(new[c], new[a], new[b]),
            Mux(c, a, b) => Mux(new[c], new[a], new[b]),
            CostAdd(c, g, x) => CostAdd(new[c], new[g], new[x]),
            leaf => leaf,
        }
    }

    fn graft(&mut self, other: &Dag, root: usize) -> usize {
        let marks = other.reached(root);
        let mut new = Vec::with_capacity(other.nodes.len());
        for (i, node) in other.nodes.iter().enumerate() {
            new.push(if marks[i] { self.intern(Dag::renumbered(*node, &new)) } else { 0 });
        }
        new[root]
    }

    // The rules of sums and comparisons, which are those that the chain meets.
    fn simple(&mut self, node: Node) -> usize {
        let word = |dag: &Dag, i: usize| if let Word(z) = dag.nodes[i] { Some(z) } else { None };
        match node {
            Add(a, b) => {
                let (a, b) = (a.min(b), a.max(b));
                match (word(self, a), word(self, b)) {
                    (Some(x), Some(y)) => self.intern(Word(wrap(self.bits, x + y))),
                    (Some(0), _) => b,
                    (_, Some(0)) => a,
                    _ => self.intern(Add(a, b)),
                }
            }
            Lt(a, b) => match (word(self, a), word(self, b)) {
                (Some(x), Some(y)) => self.intern(Flag(x < y)),
                _ if a == b => self.intern(Flag(false)),
                _ => self.intern(Lt(a, b)),
            },
            other => self.intern(other),
        }
    }

    fn simplify(&self, root: usize) -> (Dag, usize) {
        let marks = self.reached(root);
        let mut made = Dag::new(self.bits);
        let mut new = Vec::with_capacity(self.nodes.len());
        for (i, node) in self.nodes.iter().enumerate() {
            new.push(if marks[i] { made.simple(Dag::renumbered(*node, &new)) } else { 0 });
        }
        (made, new[root])
    }
}

#[repr(C)]
struct Timespec {
    seconds: i64,
    nanoseconds: i64,
}

unsafe extern "C" {
    fn clock_gettime(clock: i32, time: *mut Timespec) -> i32;
}

// The processor time of the thread, in nanoseconds.
fn now() -> u64 {
    let mut time = Timespec { seconds: 0, nanoseconds: 0 };
    unsafe { clock_gettime(3, &mut time) };
    time.seconds as u64 * 1_000_000_000 + time.nanoseconds as u64
}

fn chain(dag: &mut Dag, first: usize, step: usize, n: usize) -> usize {
    let mut last = first;
    for _ in 0..n {
        last = dag.intern(Add(last, step));
    }
    last
}

fn report(step: &str, n: usize, start: u64) {
    println!("{step} {n} {}", now() - start);
}

fn env() -> Env {
    Env { choice: vec![], input: vec![3, -2] }
}

fn time_chain(n: usize) {
    let mut dag = Dag::new(32);
    let x = dag.intern(InputWord(0));
    let y = dag.intern(InputWord(1));
    let start = now();
    let last = chain(&mut dag, x, y, n);
    report("new", n, start);
    let start = now();
    let again = chain(&mut dag, x, y, n);
    report("old", n, start);
    let root = dag.intern(Lt(again, x));
    println!("# {last}");
    let start = now();
    let value = dag.eval_bool(root, &env());
    report("eval_bool", n, start);
    let start = now();
    let (made, at) = dag.simplify(root);
    report("simplify", n, start);
    println!("# {value} {} {at}", made.nodes.len());
    let mut copy = Dag::new(32);
    let start = now();
    let copied = copy.graft(&dag, root);
    report("graft", n, start);
    println!("# {copied}");
}

fn time_short() {
    let mut dag = Dag::new(32);
    let x = dag.intern(InputWord(0));
    let y = dag.intern(InputWord(1));
    println!("# {}", chain(&mut dag, x, y, 1_000_000));
    for n in [10, 100, 1_000, 10_000, 25_000, 50_000] {
        let last = chain(&mut dag, y, x, n);
        let root = dag.intern(Lt(last, x));
        let start = now();
        let value = dag.eval_bool(root, &env());
        report("behind", n, start);
        println!("# {value}");
    }
}

fn main() {
    for n in [10_000, 100_000, 1_000_000] {
        for _ in 0..9 {
            time_chain(n);
        }
    }
    for _ in 0..9 {
        time_short();
    }
}
