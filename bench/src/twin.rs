// The twin: the library's algorithm on the library's data, in safe Rust. It is what the library's times are held against.

const WIDTH: usize = 2;
const MOST_NODES: usize = 127;
const NONE: u8 = 255;
const MOST_BYTES: usize = 4096;
const MOST_OPEN: usize = 63;
const MOST_SPECIES: usize = 254;
const MOST_TEXT: usize = 308;
const MOST_DROPPED: usize = 62;

enum Fault {
    BadParent(u8),
    BadSpecies(u8),
    SeenBefore(usize),
    OnlyChild,
}

struct Broken {
    tree: usize,
    node: usize,
    fault: Fault,
}

enum Answer {
    Good { n: usize, trees: usize, set: u64 },
    Entered { n: usize, set: u64 },
    BadVersion,
    BadCounts,
    EndsEarly(usize),
    LeftOver(usize),
    BadLength(usize),
    BadTree(Broken),
    BadTable,
    BadByte(usize),
    ShortRoom,
    NoTree { set: u64, looked: usize },
    Written(usize),
    Built { nodes: usize, looked: usize },
    Passes,
    Loosened { nodes: usize, dropped: usize },
    Contradicted { index: usize, byte: u8 },
    Unforced(usize),
    BadRecord(usize),
    BadText(usize),
    BadSet,
    Outside(usize),
}

fn bad_count(n: usize) -> bool {
    n == 0 || 64 < n
}

// ---- a tree's body

fn bad_length(l: usize) -> bool {
    l == 0 || l % WIDTH != 0 || l > WIDTH * MOST_NODES
}

fn node_count(body: &[u8]) -> usize {
    body.len() / WIDTH
}

fn parent(body: &[u8], i: usize) -> u8 {
    body[WIDTH * i]
}

fn species(body: &[u8], i: usize) -> u8 {
    body[WIDTH * i + 1]
}

fn put_node(out: &mut [u8], at: usize, parent: u8, species: u8) {
    out[WIDTH * at] = parent;
    out[WIDTH * at + 1] = species;
}

fn kids(body: &[u8], i: usize) -> usize {
    let count = node_count(body);
    let mut k = 0;
    let mut j = 1;
    while j < count {
        if parent(body, j) as usize == i {
            k += 1;
        }
        j += 1;
    }
    k
}

// The first leaf before node i with species s; i where there is none.
fn earlier(body: &[u8], s: u8, i: usize) -> usize {
    let mut j = 0;
    while j < i {
        if species(body, j) == s && kids(body, j) == 0 {
            return j;
        }
        j += 1;
    }
    i
}

fn parent_fault(body: &[u8], i: usize) -> Option<Fault> {
    let p = parent(body, i);
    let right = if i == 0 { p == NONE } else { (p as usize) < i };
    if right {
        None
    } else {
        Some(Fault::BadParent(p))
    }
}

fn node_fault(n: usize, body: &[u8], i: usize) -> Option<Fault> {
    let s = species(body, i);
    let m = kids(body, i);
    if m == 0 {
        if (s as usize) < n {
            let j = earlier(body, s, i);
            return if j < i { Some(Fault::SeenBefore(j)) } else { None };
        }
    } else if s == NONE {
        return if m == 1 { Some(Fault::OnlyChild) } else { None };
    }
    Some(Fault::BadSpecies(s))
}

// The parents of all nodes first, then node by node.
fn first_fault(tree: usize, n: usize, body: &[u8]) -> Option<Broken> {
    let count = node_count(body);
    let mut i = 0;
    while i < count {
        if let Some(fault) = parent_fault(body, i) {
            return Some(Broken { tree, node: i, fault });
        }
        i += 1;
    }
    let mut j = 0;
    while j < count {
        if let Some(fault) = node_fault(n, body, j) {
            return Some(Broken { tree, node: j, fault });
        }
        j += 1;
    }
    None
}

// ---- a collection

fn length_at(b: &[u8], p: usize) -> usize {
    256 * b[p] as usize + b[p + 1] as usize
}

// Where the tree after tree k starts, or why there is none.
fn one_tree(b: &[u8], n: usize, k: usize, at: usize) -> Result<usize, Answer> {
    let left = b.len() - at;
    if left < 2 {
        return Err(Answer::EndsEarly(k));
    }
    let l = length_at(b, at);
    if bad_length(l) {
        return Err(Answer::BadLength(k));
    }
    if left - 2 < l {
        return Err(Answer::EndsEarly(k));
    }
    let from = at + 2;
    let to = from + l;
    match first_fault(k, n, &b[from..to]) {
        None => Ok(to),
        Some(x) => Err(Answer::BadTree(x)),
    }
}

// The species under the root of a good body.
fn tree_set(body: &[u8]) -> u64 {
    let mut groups = [0; 127];
    groups_of(body, &mut groups);
    groups[0]
}

// The trees, one after the other, with their species, and then what is left over.
fn all_trees(b: &[u8], n: usize, trees: usize) -> Answer {
    let mut at = 3;
    let mut set = 0;
    let mut k = 0;
    while k < trees {
        match one_tree(b, n, k, at) {
            Ok(p) => {
                set |= tree_set(&b[at + 2..p]);
                at = p;
            }
            Err(a) => return a,
        }
        k += 1;
    }
    if at < b.len() {
        return Answer::LeftOver(b.len() - at);
    }
    Answer::Good { n, trees, set }
}

fn read_answer(b: &[u8]) -> Answer {
    if b.is_empty() {
        return Answer::EndsEarly(0);
    }
    if b[0] != 1 {
        return Answer::BadVersion;
    }
    if b.len() < 3 {
        return Answer::EndsEarly(0);
    }
    let n = b[1] as usize;
    let trees = b[2] as usize;
    if bad_count(n) || 16 < trees {
        return Answer::BadCounts;
    }
    all_trees(b, n, trees)
}

// The body of tree k of a collection that can be read.
fn body_of(b: &[u8], k: usize) -> &[u8] {
    let mut at = 3;
    let mut j = 0;
    while j < k {
        at = at + 2 + length_at(b, at);
        j += 1;
    }
    &b[at + 2..at + 2 + length_at(b, at)]
}

// ---- groups, and what a tree says

fn has(s: u64, i: usize) -> bool {
    (s >> i) & 1 == 1
}

fn lowest(s: u64) -> usize {
    s.trailing_zeros() as usize
}

fn rest(s: u64) -> u64 {
    s & s.wrapping_sub(1)
}

// Each node, from the last on, gives its group to its parent.
fn groups_of(body: &[u8], out: &mut [u64; 127]) {
    let mut k = 0;
    while k < 127 {
        out[k] = 0;
        k += 1;
    }
    let mut i = node_count(body);
    while i > 0 {
        i -= 1;
        let s = species(body, i) as usize;
        let group = if s < 64 { 1 << s } else { out[i] };
        out[i] = group;
        if i > 0 {
            out[parent(body, i) as usize] |= group;
        }
    }
}

fn stamp(g: u64, out: &mut [u64; 4096]) {
    let mut rows = g;
    while rows != 0 {
        let a = lowest(rows);
        let mut left = g;
        while left != 0 {
            out[a * 64 + lowest(left)] = g;
            left = rest(left);
        }
        rows = rest(rows);
    }
}

// The smallest common group of each two species: the last group that has both.
fn pairs(body: &[u8], groups: &[u64; 127], out: &mut [u64; 4096]) {
    *out = [0; 4096];
    let count = node_count(body);
    let mut node = 0;
    while node < count {
        stamp(groups[node], out);
        node += 1;
    }
}

// A triplet, a fan, or that not all three are here.
enum Says {
    AB,
    AC,
    BC,
    Fan,
    Absent,
}

fn closer(meets: &[u64; 4096], a: usize, b: usize, c: usize) -> bool {
    !has(meets[a * 64 + b], c)
}

fn ask(whole: u64, meets: &[u64; 4096], a: usize, b: usize, c: usize) -> Says {
    if !(has(whole, a) && has(whole, b) && has(whole, c)) {
        return Says::Absent;
    }
    if closer(meets, a, b, c) {
        return Says::AB;
    }
    if closer(meets, a, c, b) {
        return Says::AC;
    }
    if closer(meets, b, c, a) {
        return Says::BC;
    }
    Says::Fan
}

// ---- the table

fn room(n: usize) -> usize {
    if n < 3 {
        0
    } else {
        n * (n - 1) * (n - 2) / 6
    }
}

fn index(a: usize, b: usize, c: usize) -> usize {
    c * (c - 1) * (c - 2) / 6 + b * (b - 1) / 2 + a
}

// The byte of the triple a < b < c; 0 where the table does not have it.
fn byte(t: &[u8], a: usize, b: usize, c: usize) -> u8 {
    let i = index(a, b, c);
    if i < t.len() {
        t[i]
    } else {
        0
    }
}

// The first place with a byte over 15; the length where there is none.
fn over(t: &[u8]) -> usize {
    let mut i = 0;
    while i < t.len() {
        if t[i] > 15 {
            return i;
        }
        i += 1;
    }
    i
}

// Why this is no table for n species.
fn table_refusal(n: usize, t: &[u8]) -> Option<Answer> {
    if bad_count(n) {
        return Some(Answer::BadCounts);
    }
    if t.len() != room(n) {
        return Some(Answer::BadTable);
    }
    let i = over(t);
    if i < t.len() {
        return Some(Answer::BadByte(i));
    }
    None
}

// Where a search over the triples ended.
enum Found {
    Nowhere,
    At { a: usize, b: usize, c: usize },
}

fn clear(t: &mut [u8]) {
    let mut i = 0;
    while i < t.len() {
        t[i] = 0;
        i += 1;
    }
}

// Adds a bit to the byte of the triple a < b < c: 1 for ab|c, 2 for ac|b, 4 for bc|a, 8 for a fan.
fn add_bit(t: &mut [u8], a: usize, b: usize, c: usize, bit: u8) {
    t[index(a, b, c)] |= bit;
}

fn enter_tree(n: usize, body: &[u8], groups: &mut [u64; 127], meets: &mut [u64; 4096], t: &mut [u8]) {
    groups_of(body, groups);
    pairs(body, groups, meets);
    let whole = groups[0];
    let mut c = 0;
    while c < n {
        let mut b = 0;
        while b < c {
            let mut a = 0;
            while a < b {
                match ask(whole, meets, a, b, c) {
                    Says::AB => add_bit(t, a, b, c, 1),
                    Says::AC => add_bit(t, a, b, c, 2),
                    Says::BC => add_bit(t, a, b, c, 4),
                    Says::Fan => add_bit(t, a, b, c, 8),
                    Says::Absent => {}
                }
                a += 1;
            }
            b += 1;
        }
        c += 1;
    }
}

fn fill(b: &[u8], n: usize, trees: usize, t: &mut [u8]) {
    clear(t);
    let mut groups = [0; 127];
    let mut meets = [0; 4096];
    let mut k = 0;
    while k < trees {
        enter_tree(n, body_of(b, k), &mut groups, &mut meets, t);
        k += 1;
    }
}

fn list_answer(b: &[u8], t: &mut [u8]) -> Answer {
    let answer = read_answer(b);
    if let Answer::Good { n, trees, .. } = answer {
        if t.len() != room(n) {
            return Answer::BadTable;
        }
        fill(b, n, trees, t);
    }
    answer
}

// ---- entering

// Do three numbers repeat a species, or have one not below n?
fn bad(n: usize, a: usize, b: usize, c: usize) -> bool {
    if a == b || a == c || b == c {
        return true;
    }
    a >= n || b >= n || c >= n
}

// The first bad record; the length where there is none.
fn first_bad(n: usize, records: &[[u8; 3]]) -> usize {
    let mut i = 0;
    while i < records.len() {
        let [a, b, c] = records[i].map(usize::from);
        if bad(n, a, b, c) {
            return i;
        }
        i += 1;
    }
    i
}

// Enters ab|c; the three species stand in any order.
fn put_triplet(t: &mut [u8], a: usize, b: usize, c: usize) {
    let low = a.min(b.min(c));
    let high = a.max(b.max(c));
    let mid = a + b + c - (low + high);
    let bit = if a.max(b) < c {
        1
    } else if a.min(b) < c {
        2
    } else {
        4
    };
    add_bit(t, low, mid, high, bit);
}

// A set, and three species with it.
fn gather(s: u64, a: usize, b: usize, c: usize) -> u64 {
    s | 1 << a | 1 << b | 1 << c
}

// The first pass only reads, and the second one fills.
fn enter_answer(n: usize, records: &[[u8; 3]], t: &mut [u8]) -> Answer {
    let k = first_bad(n, records);
    if bad_count(n) {
        return Answer::BadCounts;
    }
    if t.len() != room(n) {
        return Answer::BadTable;
    }
    if k < records.len() {
        return Answer::BadRecord(k);
    }
    clear(t);
    let mut set = 0;
    let mut i = 0;
    while i < records.len() {
        let [a, b, c] = records[i].map(usize::from);
        put_triplet(t, a, b, c);
        set = gather(set, a, b, c);
        i += 1;
    }
    Answer::Entered { n, set }
}

// ---- house order

// The first child of node i that has species x.
fn child_with(body: &[u8], groups: &[u64; 127], i: usize, x: usize) -> usize {
    let count = node_count(body);
    let mut j = 1;
    while j < count {
        if parent(body, j) as usize == i && has(groups[j], x) {
            return j;
        }
        j += 1;
    }
    0
}

// Writes the tree under node i in house order, as node `at` under parent p. Returns the number of the next node.
fn put(body: &[u8], groups: &[u64; 127], i: usize, p: u8, at: usize, out: &mut [u8]) -> usize {
    let s = species(body, i);
    put_node(out, at, p, s);
    let mut next = at + 1;
    if s != NONE {
        return next;
    }
    let mut left = groups[i];
    while left != 0 {
        let c = child_with(body, groups, i, lowest(left));
        next = put(body, groups, c, at as u8, next, out);
        left &= !groups[c];
    }
    next
}

// Why a body is not taken.
fn bad_body(n: usize, body: &[u8]) -> Option<Answer> {
    if bad_count(n) {
        return Some(Answer::BadCounts);
    }
    if bad_length(body.len()) {
        return Some(Answer::BadLength(0));
    }
    first_fault(0, n, body).map(Answer::BadTree)
}

// Writes the tree of a good body in house order. Returns the node count.
fn arrange(body: &[u8], out: &mut [u8]) -> usize {
    let mut groups = [0; 127];
    groups_of(body, &mut groups);
    put(body, &groups, 0, NONE, 0, out)
}

fn order_answer(n: usize, body: &[u8], out: &mut [u8]) -> Answer {
    if let Some(refused) = bad_body(n, body) {
        return refused;
    }
    if out.len() < body.len() {
        return Answer::ShortRoom;
    }
    Answer::Written(arrange(body, out))
}

// ---- splitting a set, and building

// Puts b into the row of a where it is on.
fn join(on: bool, a: usize, b: usize, g: &mut [u64; 64]) {
    if on {
        g[a] |= 1 << b;
    }
}

// The species of s below k.
fn below(s: u64, k: usize) -> u64 {
    s & ((1 << k) - 1)
}

// Gives every link of a species of s to a higher one to the other row as well.
fn mirror(s: u64, g: &mut [u64; 64]) {
    let mut left = s;
    while left != 0 {
        let a = lowest(left);
        let mut row = g[a] & !((1 << a) - 1);
        while row != 0 {
            g[lowest(row)] |= 1 << a;
            row = rest(row);
        }
        left = rest(left);
    }
}

// The links on s, a row for each species: of all triples with their three species in s, and then the other direction of each link. And how many triples
// were looked at.
fn links(t: &[u8], s: u64) -> ([u64; 64], usize) {
    let mut g = [0; 64];
    let mut looked = 0;
    let mut highest = s;
    while highest != 0 {
        let c = lowest(highest);
        let low = below(s, c);
        let mut middle = low;
        while middle != 0 {
            let b = lowest(middle);
            let mut left = below(low, b);
            while left != 0 {
                let a = lowest(left);
                let v = byte(t, a, b, c);
                if v & 7 != 0 {
                    join(v & 1 != 0, a, b, &mut g);
                    if v & 6 != 0 {
                        join(v & 2 != 0, a, c, &mut g);
                        join(v & 4 != 0, b, c, &mut g);
                    }
                }
                looked += 1;
                left = rest(left);
            }
            middle = rest(middle);
        }
        highest = rest(highest);
    }
    mirror(s, &mut g);
    (g, looked)
}

// What is reached from a over the links.
fn part(g: &[u64; 64], a: usize) -> u64 {
    let mut x = 1 << a;
    let mut done = 0;
    let mut todo = x;
    while todo != 0 {
        let i = lowest(todo);
        x |= g[i];
        done |= 1 << i;
        todo = x & !done;
    }
    x
}

// The connected parts of s, by lowest species, to the front of `parts`. Returns how many there are, and how many triples were looked at.
fn split(t: &[u8], s: u64, parts: &mut [u64; 64]) -> (usize, usize) {
    let (g, looked) = links(t, s);
    let mut left = s;
    let mut k = 0;
    while left != 0 {
        let p = part(&g, lowest(left));
        parts[k] = p;
        k += 1;
        left &= !p;
    }
    (k, looked)
}

// The next node's number, or the set that stops; and the triples looked at so far.
enum Grown {
    Next { node: usize, looked: usize },
    Stopped { set: u64, looked: usize },
}

// Writes a node with the species of s as leaves under it, as node `at` under a parent. Returns the number of the next node.
fn put_star(s: u64, draft: &mut [u8], at: usize, parent: u8) -> usize {
    put_node(draft, at, parent, NONE);
    let mut next = at + 1;
    let mut left = s;
    while left != 0 {
        put_node(draft, next, at as u8, lowest(left) as u8);
        next += 1;
        left = rest(left);
    }
    next
}

// Builds the set s, as node `at` under a parent, with so many triples looked at before. A set that is joined stops the plain build, and becomes a star
// in the veto build.
fn grow(t: &[u8], s: u64, veto: bool, draft: &mut [u8], at: usize, parent: u8, before: usize) -> Grown {
    if s.count_ones() == 1 {
        put_node(draft, at, parent, lowest(s) as u8);
        return Grown::Next { node: at + 1, looked: before };
    }
    let mut parts = [0; 64];
    let (count, here) = split(t, s, &mut parts);
    let mut looked = before + here;
    if count == 1 {
        return if veto { Grown::Next { node: put_star(s, draft, at, parent), looked } } else { Grown::Stopped { set: s, looked } };
    }
    put_node(draft, at, parent, NONE);
    let mut next = at + 1;
    let mut k = 0;
    while k < count {
        match grow(t, parts[k], veto, draft, next, at as u8, looked) {
            Grown::Next { node, looked: more } => {
                next = node;
                looked = more;
            }
            stopped => return stopped,
        }
        k += 1;
    }
    Grown::Next { node: next, looked }
}

// The length that holds the body of any tree of s species.
fn body_room(s: usize) -> usize {
    WIDTH * (2 * s - 1)
}

fn all(n: usize) -> u64 {
    if n == 64 {
        u64::MAX
    } else {
        (1 << n) - 1
    }
}

// Is the set empty, or has it a species that is not below n?
fn bad_set(n: usize, s: u64) -> bool {
    s == 0 || s & all(n) != s
}

// Is the byte of the triple a < b < c not 0, and one of the three outside s? The set is asked first.
fn reaches(t: &[u8], s: u64, a: usize, b: usize, c: usize) -> bool {
    if has(s, a) & has(s, b) & has(s, c) {
        return false;
    }
    byte(t, a, b, c) != 0
}

// The first triple in index order that reaches outside s with a byte that is not 0.
fn first_outside(n: usize, t: &[u8], s: u64) -> Found {
    let mut found = Found::Nowhere;
    'search: for c in 0..n {
        for b in 0..c {
            for a in 0..b {
                if reaches(t, s, a, b, c) {
                    found = Found::At { a, b, c };
                    break 'search;
                }
            }
        }
    }
    found
}

fn build_answer(n: usize, set: u64, t: &[u8], veto: bool, out: &mut [u8]) -> Answer {
    if let Some(refusal) = table_refusal(n, t) {
        return refusal;
    }
    if bad_set(n, set) {
        return Answer::BadSet;
    }
    if let Found::At { a, b, c } = first_outside(n, t, set) {
        return Answer::Outside(index(a, b, c));
    }
    if out.len() < body_room(set.count_ones() as usize) {
        return Answer::ShortRoom;
    }
    let mut draft = [0; 254];
    match grow(t, set, veto, &mut draft, 0, NONE, 0) {
        Grown::Next { node, looked } => {
            let end = WIDTH * node;
            out[..end].copy_from_slice(&draft[..end]);
            Answer::Built { nodes: node, looked }
        }
        Grown::Stopped { set, looked } => Answer::NoTree { set, looked },
    }
}

// ---- the entered triplets on the triples that a tree resolves, and their links on a set

// Takes up xy|z: z goes into the masks of x and y, in both orders.
fn mark(on: bool, x: usize, y: usize, z: usize, masks: &mut [u64; 4096]) {
    if on {
        masks[x * 64 + y] |= 1 << z;
        masks[y * 64 + x] |= 1 << z;
    }
}

// The entered triplets on the triples that the tree resolves, as masks.
fn relate(t: &[u8], n: usize, whole: u64, meets: &[u64; 4096], masks: &mut [u64; 4096]) {
    *masks = [0; 4096];
    let mut c = 0;
    while c < n {
        let mut b = 0;
        while b < c {
            let mut a = 0;
            while a < b {
                match ask(whole, meets, a, b, c) {
                    Says::Fan | Says::Absent => {}
                    _ => {
                        let v = byte(t, a, b, c);
                        mark(v & 1 != 0, a, b, c, masks);
                        mark(v & 2 != 0, a, c, b, masks);
                        mark(v & 4 != 0, b, c, a, masks);
                    }
                }
                a += 1;
            }
            b += 1;
        }
        c += 1;
    }
}

// The species of `fresh` that are linked to i on s.
fn near_on(masks: &[u64; 4096], s: u64, fresh: u64, i: usize) -> u64 {
    let mut x = 0;
    let mut left = fresh;
    while left != 0 {
        let j = lowest(left);
        if masks[i * 64 + j] & s != 0 {
            x |= 1 << j;
        }
        left = rest(left);
    }
    x
}

// What is reached from a over the links on s.
fn part_on(masks: &[u64; 4096], s: u64, a: usize) -> u64 {
    let mut x = 1 << a;
    let mut done = 0;
    let mut todo = x;
    while todo != 0 {
        let i = lowest(todo);
        x |= near_on(masks, s, s & !x, i);
        done |= 1 << i;
        todo = x & !done;
    }
    x
}

// Do the links on g and h together join all of g?
fn beside(masks: &[u64; 4096], g: u64, h: u64) -> bool {
    let p = part_on(masks, g | h, lowest(g));
    g & !p == 0
}

// ---- checking

// Does an entered bit differ from what the tree says?
fn against(says: Says, v: u8) -> bool {
    match says {
        Says::AB => v & 2 != 0 || v & 4 != 0,
        Says::AC => v & 1 != 0 || v & 4 != 0,
        Says::BC => v & 1 != 0 || v & 2 != 0,
        Says::Fan | Says::Absent => false,
    }
}

// The first triple in index order on which an entered bit differs from what the tree says.
fn first_contradiction(n: usize, t: &[u8], whole: u64, meets: &[u64; 4096]) -> Found {
    let mut found = Found::Nowhere;
    'search: for c in 0..n {
        for b in 0..c {
            for a in 0..b {
                if against(ask(whole, meets, a, b, c), byte(t, a, b, c)) {
                    found = Found::At { a, b, c };
                    break 'search;
                }
            }
        }
    }
    found
}

// Is the group of node i joined beside every sibling?
fn beside_all(body: &[u8], groups: &[u64; 127], masks: &[u64; 4096], i: usize) -> bool {
    let count = node_count(body);
    let mut j = 1;
    while j < count {
        if j != i && parent(body, j) == parent(body, i) && !beside(masks, groups[i], groups[j]) {
            return false;
        }
        j += 1;
    }
    true
}

// The first node but the root whose group is not joined beside every sibling; 0 where there is none. A leaf's always is.
fn first_unearned(body: &[u8], groups: &[u64; 127], masks: &[u64; 4096]) -> usize {
    let count = node_count(body);
    let mut i = 1;
    while i < count {
        if species(body, i) == NONE && !beside_all(body, groups, masks, i) {
            return i;
        }
        i += 1;
    }
    0
}

// Is each group but the root's joined beside every sibling?
fn earned(body: &[u8], groups: &[u64; 127], masks: &[u64; 4096]) -> bool {
    first_unearned(body, groups, masks) == 0
}

// The parts of a and of c in s.
fn pair(masks: &[u64; 4096], s: u64, a: usize, c: usize) -> u64 {
    s & (part_on(masks, s, a) | part_on(masks, s, c))
}

// The end of the chain of such pairs that starts at s.
fn core(masks: &[u64; 4096], s: u64, a: usize, c: usize) -> u64 {
    let mut x = s;
    let mut y = pair(masks, x, a, c);
    while y != x {
        x = y;
        y = pair(masks, x, a, c);
    }
    x
}

// The core of a and c in their smallest common group, found once: it has a and c, so that 0 says not yet.
fn core_of(masks: &[u64; 4096], meets: &[u64; 4096], cores: &mut [u64; 4096], a: usize, c: usize) -> u64 {
    let known = cores[a * 64 + c];
    if known != 0 {
        return known;
    }
    let x = core(masks, meets[a * 64 + c], a, c);
    cores[a * 64 + c] = x;
    x
}

// Is what the tree says of a, b and c forced?
fn sure(whole: u64, meets: &[u64; 4096], masks: &[u64; 4096], cores: &mut [u64; 4096], a: usize, b: usize, c: usize) -> bool {
    match ask(whole, meets, a, b, c) {
        Says::AB => has(core_of(masks, meets, cores, a, c), b),
        Says::AC => has(core_of(masks, meets, cores, a, b), c),
        Says::BC => has(core_of(masks, meets, cores, a, b), c),
        Says::Fan | Says::Absent => true,
    }
}

// The first triple in index order whose triplet in the tree is not forced.
fn first_unforced(n: usize, whole: u64, meets: &[u64; 4096], masks: &[u64; 4096]) -> Found {
    let mut cores = [0; 4096];
    let mut found = Found::Nowhere;
    'search: for c in 0..n {
        for b in 0..c {
            for a in 0..b {
                if !sure(whole, meets, masks, &mut cores, a, b, c) {
                    found = Found::At { a, b, c };
                    break 'search;
                }
            }
        }
    }
    found
}

// Why a candidate is not taken, or what contradicts it. Where nothing does, its groups and its common groups are found.
fn candidate_refusal(n: usize, t: &[u8], body: &[u8], groups: &mut [u64; 127], meets: &mut [u64; 4096]) -> Option<Answer> {
    let refusal = table_refusal(n, t).or_else(|| bad_body(n, body));
    if refusal.is_some() {
        return refusal;
    }
    groups_of(body, groups);
    pairs(body, groups, meets);
    match first_contradiction(n, t, groups[0], meets) {
        Found::At { a, b, c } => Some(Answer::Contradicted { index: index(a, b, c), byte: byte(t, a, b, c) }),
        Found::Nowhere => None,
    }
}

fn check_answer(n: usize, t: &[u8], body: &[u8]) -> Answer {
    let mut groups = [0; 127];
    let mut meets = [0; 4096];
    if let Some(refusal) = candidate_refusal(n, t, body, &mut groups, &mut meets) {
        return refusal;
    }
    let whole = groups[0];
    let mut masks = [0; 4096];
    relate(t, n, whole, &meets, &mut masks);
    if earned(body, &groups, &masks) {
        return Answer::Passes;
    }
    match first_unforced(n, whole, &meets, &masks) {
        Found::At { a, b, c } => Answer::Unforced(index(a, b, c)),
        Found::Nowhere => Answer::Passes,
    }
}

// ---- loosening

// The number that node i had before node k went.
fn old_number(i: usize, k: usize) -> usize {
    if i < k {
        i
    } else {
        i + 1
    }
}

// The parent that a node gets in place of p once node k went, whose parent is `above`.
fn new_parent(p: u8, above: u8, k: usize) -> u8 {
    let q = p as usize;
    if q == k {
        return above;
    }
    if q < k {
        return p;
    }
    p - 1
}

// The nodes of a body without node k, to the front of `out`: its children go to its parent.
fn leave_out(body: &[u8], k: usize, out: &mut [u8; 254]) {
    let count = node_count(body);
    let above = parent(body, k);
    put_node(out, 0, NONE, species(body, 0));
    let mut i = 1;
    while i + 1 < count {
        let j = old_number(i, k);
        put_node(out, i, new_parent(parent(body, j), above, k), species(body, j));
        i += 1;
    }
}

// Drops node k from the tree in the first m nodes of the draft, and puts what is left in house order.
fn drop_node(draft: &mut [u8; 254], m: usize, k: usize) {
    let mut less = [0; 254];
    leave_out(&draft[..WIDTH * m], k, &mut less);
    arrange(&less[..WIDTH * (m - 1)], draft);
}

// A node whose group is not earned, and the group; node 0 where each is earned.
struct Unearned {
    node: usize,
    group: u64,
}

// The first one of a tree, by what is entered on the triples that it resolves.
fn find_unearned(n: usize, t: &[u8], body: &[u8]) -> Unearned {
    let mut groups = [0; 127];
    let mut meets = [0; 4096];
    let mut masks = [0; 4096];
    groups_of(body, &mut groups);
    pairs(body, &groups, &mut meets);
    relate(t, n, groups[0], &meets, &mut masks);
    let node = first_unearned(body, &groups, &masks);
    Unearned { node, group: groups[node] }
}

fn loosen_answer(n: usize, t: &[u8], body: &[u8], out: &mut [u8], list: &mut [u64]) -> Answer {
    if let Some(refusal) = candidate_refusal(n, t, body, &mut [0; 127], &mut [0; 4096]) {
        return refusal;
    }
    if out.len() < body.len() || list.len() < MOST_DROPPED {
        return Answer::ShortRoom;
    }
    let mut draft = [0; 254];
    let mut m = arrange(body, &mut draft);
    let mut dropped = 0;
    loop {
        let Unearned { node, group } = find_unearned(n, t, &draft[..WIDTH * m]);
        if node == 0 {
            break;
        }
        list[dropped] = group;
        dropped += 1;
        drop_node(&mut draft, m, node);
        m -= 1;
    }
    let end = WIDTH * m;
    out[..end].copy_from_slice(&draft[..end]);
    Answer::Loosened { nodes: m, dropped }
}

// ---- Newick text

// The first place from `at` on without a blank.
fn skip(text: &[u8], at: usize) -> usize {
    let mut i = at;
    while i < text.len() && (text[i] == b' ' || text[i] == 10 || text[i] == 13) {
        i += 1;
    }
    i
}

fn stands(text: &[u8], at: usize, sign: u8) -> bool {
    at < text.len() && text[at] == sign
}

fn digit(c: u8) -> bool {
    b'0' <= c && c <= b'9'
}

// The first place from `at` on without a digit.
fn digits(text: &[u8], at: usize) -> usize {
    let mut i = at;
    while i < text.len() && digit(text[i]) {
        i += 1;
    }
    i
}

// The species number that begins at a digit, and where it ends; or the digit that it cannot have.
fn number(text: &[u8], at: usize) -> Result<(u8, usize), usize> {
    let mut s = (text[at] - b'0') as usize;
    let mut i = at + 1;
    while i < text.len() && digit(text[i]) {
        let longer = 10 * s + (text[i] - b'0') as usize;
        if s == 0 || longer > MOST_SPECIES {
            return Err(i);
        }
        s = longer;
        i += 1;
    }
    Ok((s as u8, i))
}

// Where a length ends that may stand behind a subtree.
fn length(text: &[u8], at: usize) -> Result<usize, usize> {
    let colon = skip(text, at);
    if !stands(text, colon, b':') {
        return Ok(colon);
    }
    let from = skip(text, colon + 1);
    let end = digits(text, from);
    if end == from {
        return Err(from);
    }
    if !stands(text, end, b'.') {
        return Ok(end);
    }
    let last = digits(text, end + 1);
    if last == end + 1 {
        return Err(last);
    }
    Ok(last)
}

// Where reading has come to, and the next node's number.
struct Reached {
    at: usize,
    next: usize,
}

// Reads a subtree under a parent, with so many brackets open.
fn subtree(text: &[u8], from: usize, open: usize, parent: u8, node: usize, draft: &mut [u8; 254]) -> Result<Reached, usize> {
    let at = skip(text, from);
    if at == text.len() {
        return Err(at);
    }
    let c = text[at];
    let bracket = c == b'(';
    if !bracket && !digit(c) || bracket && open == MOST_OPEN || node == MOST_NODES {
        return Err(at);
    }
    let Reached { at, next } = if bracket {
        put_node(draft, node, parent, NONE);
        subtrees(text, at + 1, open + 1, node, draft)?
    } else {
        let (s, end) = number(text, at)?;
        put_node(draft, node, parent, s);
        Reached { at: end, next: node + 1 }
    };
    let at = length(text, at)?;
    Ok(Reached { at, next })
}

// Reads the subtrees of a bracket that stands as a node, and the sign that closes it.
fn subtrees(text: &[u8], from: usize, open: usize, node: usize, draft: &mut [u8; 254]) -> Result<Reached, usize> {
    let mut reached = subtree(text, from, open, node as u8, node + 1, draft)?;
    loop {
        let at = skip(text, reached.at);
        if stands(text, at, b')') {
            return Ok(Reached { at: at + 1, next: reached.next });
        }
        if !stands(text, at, b',') {
            return Err(at);
        }
        reached = subtree(text, at + 1, open, node as u8, reached.next, draft)?;
    }
}

// The number of nodes, or the byte place.
fn whole(text: &[u8], draft: &mut [u8; 254]) -> Result<usize, usize> {
    if text.len() > MOST_BYTES {
        return Err(MOST_BYTES);
    }
    let reached = subtree(text, 0, 0, NONE, 0, draft)?;
    let end = skip(text, reached.at);
    if !stands(text, end, b';') {
        return Err(end);
    }
    let last = skip(text, end + 1);
    if last < text.len() {
        return Err(last);
    }
    Ok(reached.next)
}

fn parse_answer(n: usize, text: &[u8], out: &mut [u8]) -> Answer {
    if bad_count(n) {
        return Answer::BadCounts;
    }
    let mut draft = [0; 254];
    let nodes = match whole(text, &mut draft) {
        Ok(nodes) => nodes,
        Err(place) => return Answer::BadText(place),
    };
    let body = &draft[..WIDTH * nodes];
    if let Some(x) = first_fault(0, n, body) {
        return Answer::BadTree(x);
    }
    if out.len() < body.len() {
        return Answer::ShortRoom;
    }
    out[..body.len()].copy_from_slice(body);
    Answer::Written(nodes)
}

// Writes a species number below 100. Returns the place behind it.
fn write_number(s: u8, at: usize, draft: &mut [u8; MOST_TEXT]) -> usize {
    if s < 10 {
        draft[at] = b'0' + s;
        return at + 1;
    }
    draft[at] = b'0' + s / 10;
    draft[at + 1] = b'0' + s % 10;
    at + 2
}

// Writes the tree under node i as text, in house order. Returns the place behind it.
fn write_subtree(body: &[u8], groups: &[u64; 127], i: usize, at: usize, draft: &mut [u8; MOST_TEXT]) -> usize {
    let s = species(body, i);
    if s != NONE {
        return write_number(s, at, draft);
    }
    let mut next = at;
    let mut sign = b'(';
    let mut left = groups[i];
    while left != 0 {
        draft[next] = sign;
        let c = child_with(body, groups, i, lowest(left));
        next = write_subtree(body, groups, c, next + 1, draft);
        sign = b',';
        left &= !groups[c];
    }
    draft[next] = b')';
    next + 1
}

fn render_answer(n: usize, body: &[u8], out: &mut [u8]) -> Answer {
    if let Some(refused) = bad_body(n, body) {
        return refused;
    }
    let mut groups = [0; 127];
    groups_of(body, &mut groups);
    let mut draft = [0; MOST_TEXT];
    let end = write_subtree(body, &groups, 0, 0, &mut draft);
    draft[end] = b';';
    let text = &draft[..end + 1];
    if out.len() < text.len() {
        return Answer::ShortRoom;
    }
    out[..text.len()].copy_from_slice(text);
    Answer::Written(text.len())
}

// ---- numbers handed back

// Lays `given` into `values` from place 0 on, as far as there is room.
fn lay(values: &mut [usize], given: &[usize]) {
    for (place, x) in values.iter_mut().zip(given) {
        *place = *x;
    }
}

fn hand_back(answer: Answer, values: &mut [usize]) -> usize {
    match answer {
        Answer::Good { n, trees, set } => {
            lay(values, &[n, trees, set as usize]);
            0
        }
        Answer::Entered { n, set } => {
            lay(values, &[n, set as usize]);
            0
        }
        Answer::BadVersion => 1,
        Answer::BadCounts => 2,
        Answer::EndsEarly(k) => {
            lay(values, &[k]);
            3
        }
        Answer::LeftOver(k) => {
            lay(values, &[k]);
            4
        }
        Answer::BadLength(k) => {
            lay(values, &[k]);
            5
        }
        Answer::BadTree(x) => {
            let (kind, carried) = match x.fault {
                Fault::BadParent(p) => (1, p as usize),
                Fault::BadSpecies(s) => (2, s as usize),
                Fault::SeenBefore(j) => (3, j),
                Fault::OnlyChild => (4, 0),
            };
            lay(values, &[x.tree, x.node, kind, carried]);
            6
        }
        Answer::BadTable => 7,
        Answer::BadByte(i) => {
            lay(values, &[i]);
            8
        }
        Answer::ShortRoom => 9,
        Answer::NoTree { set, looked } => {
            lay(values, &[set as usize, looked]);
            10
        }
        Answer::Written(count) => {
            lay(values, &[count]);
            0
        }
        Answer::Built { nodes, looked } => {
            lay(values, &[nodes, looked]);
            0
        }
        Answer::Passes => 0,
        Answer::Loosened { nodes, dropped } => {
            lay(values, &[nodes, dropped]);
            0
        }
        Answer::Contradicted { index, byte } => {
            lay(values, &[index, byte as usize]);
            11
        }
        Answer::Unforced(index) => {
            lay(values, &[index]);
            12
        }
        Answer::BadRecord(i) => {
            lay(values, &[i]);
            13
        }
        Answer::BadText(place) => {
            lay(values, &[place]);
            14
        }
        Answer::BadSet => 15,
        Answer::Outside(index) => {
            lay(values, &[index]);
            16
        }
    }
}

// The same of a build, whose last value is always the triples looked at.
fn hand_back_counted(answer: Answer, values: &mut [usize]) -> usize {
    match answer {
        Answer::BadByte(i) | Answer::Outside(i) => lay(values, &[i, 0]),
        Answer::Built { .. } | Answer::NoTree { .. } => {}
        _ => lay(values, &[0]),
    }
    hand_back(answer, values)
}

pub fn read(b: &[u8], values: &mut [usize]) -> usize {
    hand_back(read_answer(b), values)
}

pub fn list(b: &[u8], t: &mut [u8], values: &mut [usize]) -> usize {
    hand_back(list_answer(b, t), values)
}

pub fn enter(n: usize, records: &[[u8; 3]], t: &mut [u8], values: &mut [usize]) -> usize {
    hand_back(enter_answer(n, records, t), values)
}

pub fn order(n: usize, body: &[u8], out: &mut [u8], values: &mut [usize]) -> usize {
    hand_back(order_answer(n, body, out), values)
}

pub fn build(n: usize, set: u64, t: &[u8], out: &mut [u8], values: &mut [usize]) -> usize {
    hand_back_counted(build_answer(n, set, t, false, out), values)
}

pub fn veto(n: usize, set: u64, t: &[u8], out: &mut [u8], values: &mut [usize]) -> usize {
    hand_back_counted(build_answer(n, set, t, true, out), values)
}

pub fn check(n: usize, t: &[u8], body: &[u8], values: &mut [usize]) -> usize {
    hand_back(check_answer(n, t, body), values)
}

pub fn loosen(n: usize, t: &[u8], body: &[u8], out: &mut [u8], list: &mut [u64], values: &mut [usize]) -> usize {
    hand_back(loosen_answer(n, t, body, out, list), values)
}

pub fn parse(n: usize, text: &[u8], out: &mut [u8], values: &mut [usize]) -> usize {
    hand_back(parse_answer(n, text, out), values)
}

pub fn render(n: usize, body: &[u8], out: &mut [u8], values: &mut [usize]) -> usize {
    hand_back(render_answer(n, body, out), values)
}
