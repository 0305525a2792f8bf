//! The definitions of extract and push in `crates/rewriting/specs` (`Routing`, `Extracting`, `Pushing`), ported by hand to Rust, line by
//! line; without the outlay, and without the bound of the numbers. Each of the seven points in `docs/DIFFERENCES.md` can be
//! followed or not; where none is, the port does what the Rust does.
use crate::df::LogicalPlan as L;
use crate::df::*;
use std::cell::Cell;
use std::collections::HashMap;
use std::sync::Arc;
pub type Fs = Vec<Column>;
pub type Pair = (Expr, String);
#[derive(Clone, Debug, PartialEq)]
pub enum O {
    Built(L, u64),
    No(u64),
    Ref(u32, u8, usize, u64),
}
use O::*;
/// `a[k]` says whether point k of the page is followed; `failed` counts the tests that are thought never to fail
#[derive(Default)]
pub struct A {
    pub a: [bool; 8],
    pub failed: [Cell<usize>; 4],
}
pub const TESTS: [&str; 4] = [
    "what is behind a needed column is a column of the input",
    "a single input owns all that is pushed into it",
    "an extraction projection shows its aliases",
    "a rebuilt node shows its aliases",
];
type Own<'x> = &'x dyn Fn(&Expr) -> Option<u8>;
#[derive(Clone)]
struct Ext {
    entries: Vec<(u8, Expr, String)>,
    needed: Vec<(u8, Column)>,
    next: u64,
    new: bool,
}
fn empty(n: u64) -> Ext {
    Ext { entries: vec![], needed: vec![], next: n, new: false }
}
fn sc(fs: &Fs) -> Fs {
    fs.iter().flat_map(|f| [f.clone(), Column::new(None, &f.name)]).collect()
}
fn hacr(cs: &Fs, e: &Expr) -> bool {
    match e {
        Expr::Literal(_) => true,
        Expr::Column(r) => cs.contains(r),
        Expr::Alias(a) => hacr(cs, &a.expr),
        Expr::Call(_, es) => es.iter().all(|e| hacr(cs, e)),
    }
}
fn owner_of(a: bool, b: bool) -> Option<u8> {
    match (a, b) {
        (true, false) => Some(1),
        (false, true) => Some(2),
        _ => None,
    }
}
fn sole(fs: Fs) -> impl Fn(&Expr) -> Option<u8> {
    let c = sc(&fs);
    move |e| owner_of(hacr(&c, e), false)
}
fn owning(l: Fs, r: Fs) -> impl Fn(&Expr) -> Option<u8> {
    let (l, r) = (sc(&l), sc(&r));
    move |e| owner_of(hacr(&l, e), hacr(&r, e))
}
fn marked(e: &Expr) -> bool {
    e.placement() == ExpressionPlacement::MoveTowardsLeafNodes
}
fn holds(e: &Expr) -> bool {
    match e {
        Expr::Alias(a) => holds(&a.expr),
        Expr::Call(_, es) => marked(e) || es.iter().any(holds),
        _ => false,
    }
}
fn has_ext(es: &[Expr]) -> bool {
    es.iter().any(holds)
}
fn need(s: u8, f: &Column, ns: &mut Vec<(u8, Column)>) {
    if !ns.iter().any(|m| m.0 == s && &m.1 == f) {
        ns.push((s, f.clone()))
    }
}
fn refs_all(e: &Expr) -> Vec<Column> {
    let mut v = vec![];
    e.all_refs(&mut v);
    v.into_iter().cloned().collect()
}
fn prefixed(n: &str) -> bool {
    n.starts_with("__datafusion_extracted")
}
fn gen_(n: u64) -> String {
    format!("__datafusion_extracted_{n}")
}
fn col(n: &str) -> Expr {
    Expr::Column(Column::new(None, n))
}
fn alias(e: Expr, f: &Column) -> Expr {
    e.alias_qualified(f.relation.clone(), &f.name)
}
fn walk(own: Own, e: &Expr, g: &mut Ext) -> Expr {
    match e {
        Expr::Literal(_) => e.clone(),
        Expr::Column(r) => {
            if let Some(s) = own(e) {
                need(s, r, &mut g.needed)
            }
            e.clone()
        }
        Expr::Alias(a) => {
            if prefixed(&a.name) {
                e.clone()
            } else {
                let x = walk(own, &a.expr, g);
                Expr::Alias(Alias { expr: Box::new(x), ..a.clone() })
            }
        }
        Expr::Call(n, es) => {
            if marked(e)
                && let Some(s) = own(e)
            {
                if let Some(d) = g.entries.iter().find(|d| &d.1 == e) {
                    let x = d.2.clone();
                    g.new = true;
                    return col(&x);
                }
                let x = gen_(g.next);
                g.entries.push((s, e.clone(), x.clone()));
                for r in refs_all(e) {
                    need(s, &r, &mut g.needed)
                }
                g.next += 1;
                g.new = true;
                return col(&x);
            }
            Expr::Call(*n, es.iter().map(|e| walk(own, e, g)).collect())
        }
    }
}
fn pairs_of(s: u8, ds: &[(u8, Expr, String)]) -> Vec<Pair> {
    ds.iter().filter(|d| d.0 == s).map(|d| (d.1.clone().unalias(), d.2.clone())).collect()
}
fn needed_of(s: u8, ns: &[(u8, Column)]) -> Fs {
    ns.iter().filter(|d| d.0 == s).map(|d| d.1.clone()).collect()
}
fn proj(es: Vec<Expr>, p: &L) -> Result<L> {
    Ok(L::Projection(Projection::try_new(es, Arc::new(p.clone()))?))
}
fn made(r: Result<L>, stage: u8, level: usize, n: u64) -> O {
    match r {
        Ok(p) => Built(p, n),
        Err(q) => Ref(q.0, stage, level, n),
    }
}
fn and_then(o: O, f: impl FnOnce(L, u64) -> O) -> O {
    match o {
        Built(p, n) => f(p, n),
        x => x,
    }
}
fn may(r: &Column, f: &Column) -> bool {
    r.name == f.name && (r.relation.is_none() || r.relation == f.relation)
}
fn seek(r: &Column, fs: &Fs) -> usize {
    fs.iter().position(|f| may(r, f)).unwrap_or(fs.len())
}
fn refs(fs: &Fs) -> Vec<Expr> {
    fs.iter().map(|f| Expr::Column(f.clone())).collect()
}
fn fo(p: &L) -> Fs {
    p.schema().cols()
}
impl A {
    pub fn new(on: bool) -> A {
        A { a: [on; 8], failed: Default::default() }
    }
    fn note(&self, k: usize) {
        self.failed[k].set(self.failed[k].get() + 1)
    }
    fn replace(&self, m: &(Fs, Vec<Expr>), e: &Expr) -> Expr {
        match e {
            Expr::Literal(_) => e.clone(),
            Expr::Column(r) => {
                if self.a[4] {
                    m.1.get(seek(r, &m.0)).cloned().unwrap_or(e.clone())
                } else {
                    let h: HashMap<String, Expr> = m.0.iter().map(|f| f.flat_name()).zip(m.1.iter().cloned()).collect();
                    h.get(&r.flat_name()).cloned().unwrap_or(e.clone())
                }
            }
            Expr::Alias(a) => Expr::Alias(Alias { expr: Box::new(self.replace(m, &a.expr)), ..a.clone() }),
            Expr::Call(n, es) => Expr::Call(*n, es.iter().map(|e| self.replace(m, e)).collect()),
        }
    }
    fn merged(&self, i: &L, es: &Vec<Expr>, ps: &[Pair], cs: &Fs) -> Vec<Expr> {
        let m = (es.iter().map(|e| e.field()).collect::<Fs>(), es.iter().map(|e| e.clone().unalias()).collect::<Vec<_>>());
        let mut acc = es.clone();
        let mut last: Vec<(Expr, String)> = vec![];
        for e in es {
            if let Expr::Alias(a) = e
                && prefixed(&a.name)
            {
                if let Some(x) = last.iter_mut().find(|x| x.0 == *a.expr) { x.1 = a.name.clone() } else { last.push((*a.expr.clone(), a.name.clone())) }
            }
        }
        for p in ps {
            let r = self.replace(&m, &p.0);
            let a = r.clone().alias(&p.1);
            if self.a[5] {
                if !acc.contains(&a) {
                    acc.push(a)
                }
            } else {
                match last.iter().find(|x| x.0 == r) {
                    Some(x) if x.1 == p.1 => {}
                    _ => acc.push(a),
                }
            }
        }
        let ins = fo(i);
        for c in cs {
            let r = self.replace(&m, &Expr::Column(c.clone()));
            if let Expr::Column(rc) = &r {
                let inn = ins.iter().any(|f| may(rc, f));
                if !inn {
                    self.note(0)
                }
                if self.a[5] {
                    let mut t = acc.clone();
                    t.push(r.clone());
                    if inn && lawful(&t.iter().map(|e| e.field()).collect::<Vec<_>>()) {
                        acc = t
                    }
                } else if inn && !es.contains(&r) {
                    acc.push(r.clone())
                }
            }
        }
        acc
    }
    fn freshly(fs: &Fs, ps: &[Pair]) -> Vec<Expr> {
        let mut v: Vec<Expr> = ps.iter().map(|p| p.0.clone().alias(&p.1)).collect();
        v.extend(refs(fs));
        v
    }
    fn bep(&self, p: &L, ps: &[Pair], cs: &Fs) -> (Result<L>, u8) {
        match p {
            L::Projection(q) => (proj(self.merged(&q.input, &q.expr, ps, cs), &q.input), 3),
            _ => (proj(Self::freshly(&fo(p), ps), p), 2),
        }
    }
    fn build_ext(&self, level: usize, p: &L, ps: &[Pair], cs: &Fs, n: u64) -> O {
        if ps.is_empty() {
            return Built(p.clone(), n);
        }
        let (r, s) = self.bep(p, ps, cs);
        made(r, s, level, n)
    }
    fn recover(&self, level: usize, old: &Fs, p: L, n: u64) -> O {
        let new = fo(&p);
        if &new == old {
            return Built(p, n);
        }
        let es = if new.len() == old.len() {
            old.iter().zip(new.iter()).map(|(f, g)| if f == g { Expr::Column(g.clone()) } else { alias(Expr::Column(g.clone()), f) }).collect()
        } else {
            refs(old)
        };
        made(proj(es, &p), 5, level, n)
    }
    pub fn extract(&self, p: &L, n: u64) -> O {
        if !matches!(p, L::Filter(_) | L::Sort(_) | L::Aggregate(_) | L::Join(_)) {
            return No(n);
        }
        if !has_ext(&p.expressions()) {
            return No(n);
        }
        let ins = p.inputs();
        let mut g = empty(n);
        let s1;
        let o2;
        let own: Own = if ins.len() == 2 {
            o2 = owning(fo(ins[0]), fo(ins[1]));
            &o2
        } else {
            s1 = sole(fo(ins[0]));
            &s1
        };
        let es: Vec<Expr> = p.expressions().iter().map(|e| walk(own, e, &mut g)).collect();
        if !g.new {
            return No(n);
        }
        let t = g.next;
        and_then(self.build_ext(0, ins[0], &pairs_of(1, &g.entries), &needed_of(1, &g.needed), t), |x, m| {
            let fin = |is: Vec<L>, m| and_then(made(p.with_new_exprs(es.clone(), is), 4, 0, m), |q, m| self.recover(0, &fo(p), q, m));
            if ins.len() == 2 {
                and_then(self.build_ext(0, ins[1], &pairs_of(2, &g.entries), &needed_of(2, &g.needed), m), |y, m| fin(vec![x.clone(), y], m))
            } else {
                fin(vec![x], m)
            }
        })
    }
    fn is_ext(e: &Expr) -> bool {
        matches!(e,Expr::Alias(a) if prefixed(&a.name)&&a.relation.is_none())
    }
    pub fn tpi(&self, p: &L, level: usize, n: u64) -> O {
        let L::Projection(q) = p else { return No(n) };
        self.split(&q.input, &q.expr, level, n)
    }
    fn split(&self, p: &L, es: &Vec<Expr>, level: usize, n: u64) -> O {
        if !(es.iter().any(Self::is_ext) || has_ext(es)) {
            return No(n);
        }
        let own = sole(fo(p));
        let mut g = empty(n);
        let mut whole = true;
        let mut back = vec![];
        for e in es {
            match e {
                Expr::Column(r) => {
                    need(1, r, &mut g.needed);
                    back.push(e.clone())
                }
                Expr::Alias(a) if Self::is_ext(e) => {
                    if !g.entries.iter().any(|d| &d.1 == e && d.2 == a.name) {
                        g.entries.push((1, e.clone(), a.name.clone()))
                    }
                    for r in refs_all(&a.expr) {
                        need(1, &r, &mut g.needed)
                    }
                    back.push(col(&a.name))
                }
                _ => {
                    whole = false;
                    let x = walk(&own, e, &mut g);
                    let f = e.field();
                    back.push(if x.field() == f { x } else { alias(x, &f) })
                }
            }
        }
        let ps = pairs_of(1, &g.entries);
        if ps.is_empty() {
            return No(n);
        }
        let t = g.next;
        let cs = needed_of(1, &g.needed);
        let r = match self.pep(p, &ps, &cs, whole, level, t) {
            No(m) => {
                if g.new {
                    self.build_ext(level, p, &ps, &cs, m)
                } else {
                    No(m)
                }
            }
            x => x,
        };
        and_then(r, |b, m| {
            let bf = fo(&b);
            let of: Fs = es.iter().map(|e| e.field()).collect();
            let set = bf.iter().all(|f| of.iter().any(|g| g.name == f.name)) && of.iter().all(|f| bf.iter().any(|g| g.name == f.name));
            if (if self.a[1] { whole && bf.len() == es.len() && set } else { set }) { Built(b, m) } else { made(proj(back, &b), 5, level, m) }
        })
    }
    fn pep(&self, p: &L, ps: &[Pair], cs: &Fs, whole: bool, level: usize, n: u64) -> O {
        match p {
            L::TableScan(_) | L::Unnest(_) => No(n),
            L::Projection(q) if whole => {
                let es = self.merged(&q.input, &q.expr, ps, cs);
                and_then(made(proj(es.clone(), &q.input), 3, level, n), |x, m| {
                    let pure = es.iter().all(|e| matches!(e, Expr::Column(_)) || Self::is_ext(e)) && es.iter().any(Self::is_ext);
                    if pure {
                        match self.split(&q.input, &es, level + 1, m) {
                            No(m) => Built(x, m),
                            y => y,
                        }
                    } else {
                        Built(x, m)
                    }
                })
            }
            L::Projection(_) | L::Aggregate(_) if self.a[6] => No(n),
            L::Union(_) => self.into_union(p, ps, cs, level, n),
            L::Join(_) => self.into_join(p, ps, cs, level, n),
            L::SubqueryAlias(q) => {
                let (ps, cs) = self.remap(&fo(p), &fo(&q.input), ps, cs);
                self.into_one(p, &ps, &cs, level, n)
            }
            _ => self.into_one(p, ps, cs, level, n),
        }
    }
    fn remap(&self, from: &Fs, to: &Fs, ps: &[Pair], cs: &Fs) -> (Vec<Pair>, Fs) {
        let m = (from.clone(), refs(to));
        let mut o: Fs = vec![];
        for c in cs {
            let x = match self.replace(&m, &Expr::Column(c.clone())) {
                Expr::Column(d) => d,
                _ => c.clone(),
            };
            if !o.contains(&x) {
                o.push(x)
            }
        }
        (ps.iter().map(|p| (self.replace(&m, &p.0), p.1.clone())).collect(), o)
    }
    fn shows(ps: &[Pair], p: &L) -> bool {
        ps.iter().all(|d| fo(p).iter().any(|f| f.name == d.1))
    }
    fn place(&self, p: &L, ps: &[Pair], cs: &Fs, level: usize, n: u64) -> O {
        let (r, s) = self.bep(p, ps, cs);
        and_then(made(r, s, level, n), |q, m| {
            if !Self::shows(ps, &q) {
                self.note(2);
                return No(m);
            }
            match self.tpi(&q, level + 1, m) {
                No(m) => Built(q, m),
                x => x,
            }
        })
    }
    fn rebuilt_over(&self, level: usize, ps: &[Pair], r: Result<L>, n: u64) -> O {
        and_then(made(r, 4, level, n), |q, m| {
            if Self::shows(ps, &q) {
                Built(q, m)
            } else {
                self.note(3);
                No(m)
            }
        })
    }
    fn into_one(&self, node: &L, ps: &[Pair], cs: &Fs, level: usize, n: u64) -> O {
        let i = node.inputs()[0];
        let own = sole(fo(i));
        if !(ps.iter().all(|p| own(&p.0).is_some()) && cs.iter().all(|c| own(&Expr::Column(c.clone())).is_some()) && !ps.is_empty()) {
            self.note(1);
            return No(n);
        }
        and_then(self.place(i, ps, cs, level, n), |r, m| self.rebuilt_over(level, ps, node.with_new_exprs(node.expressions(), vec![r]), m))
    }
    fn into_join(&self, node: &L, ps: &[Pair], cs: &Fs, level: usize, n: u64) -> O {
        let L::Join(j) = node else { unreachable!() };
        let own = owning(fo(&j.l), fo(&j.r));
        if !(ps.iter().all(|p| own(&p.0).is_some()) && cs.iter().all(|c| own(&Expr::Column(c.clone())).is_some()) && !ps.is_empty()) {
            return No(n);
        }
        let f = |s| -> (Vec<Pair>, Fs) {
            (
                ps.iter().filter(|p| own(&p.0) == Some(s)).cloned().collect(),
                cs.iter().filter(|c| own(&Expr::Column((*c).clone())) == Some(s)).cloned().collect(),
            )
        };
        let (t, u) = (f(1), f(2));
        let pl = matches!(j.kind, 2 | 3);
        let pr = matches!(j.kind, 1 | 3);
        if self.a[2] && !((!pl || t.0.iter().all(|p| p.0.null_keeping())) && (!pr || u.0.iter().all(|p| p.0.null_keeping()))) {
            return No(n);
        }
        let pi = |i: &L, t: &(Vec<Pair>, Fs), n| if t.0.is_empty() { Built(i.clone(), n) } else { self.place(i, &t.0, &t.1, level, n) };
        and_then(pi(&j.l, &t, n), |x, m| and_then(pi(&j.r, &u, m), |y, m| self.rebuilt_over(level, ps, node.with_new_exprs(node.expressions(), vec![x, y]), m)))
    }
    fn into_union(&self, node: &L, ps: &[Pair], cs: &Fs, level: usize, n: u64) -> O {
        if ps.is_empty() {
            return No(n);
        }
        let from = fo(node);
        let mut rs = vec![];
        let mut m = n;
        for i in node.inputs() {
            let (p, c) = self.remap(&from, &fo(i), ps, cs);
            match self.place(i, &p, &c, level, m) {
                Built(r, k) => {
                    rs.push(r);
                    m = k
                }
                x => return x,
            }
        }
        if self.a[3] {
            let al: Fs = ps.iter().map(|p| Column::new(None, &p.1)).collect();
            let w = fo(&rs[0]).len();
            let t: Vec<usize> = fo(node.inputs()[0]).iter().map(|f| seek(f, &fo(&rs[0]))).collect();
            let o: Vec<usize> = al.iter().map(|f| seek(f, &fo(&rs[0]))).collect();
            for (i, r) in node.inputs().into_iter().zip(rs.iter()) {
                let rf = fo(r);
                let ok = fo(i).iter().all(|f| resolves(&rf, f))
                    && fo(i).iter().map(|f| seek(f, &rf)).eq(t.iter().copied())
                    && al.iter().all(|f| resolves(&rf, f))
                    && al.iter().map(|f| seek(f, &rf)).eq(o.iter().copied())
                    && rf.len() == w
                    && (0..w).all(|k| t.contains(&k) || o.contains(&k));
                if !ok {
                    return No(m);
                }
            }
        }
        self.rebuilt_over(level, ps, mk_union(rs), m)
    }
    pub fn push(&self, p: &L, n: u64) -> O {
        let L::Projection(_) = p else { return No(n) };
        and_then(self.tpi(p, 0, n), |r, m| if !self.a[7] || fo(&r) == fo(p) { Built(r, m) } else { made(proj(refs(&fo(p)), &r), 6, 0, m) })
    }
}
