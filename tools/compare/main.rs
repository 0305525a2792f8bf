//! Random plans, and worked ones, put through the Rust of DataFusion's two passes (`orig.rs`, cut from a file that the user gives) and
//! through the port of the definitions (`port.rs`), and the outcomes compared: the tree, no change or the number of the refusal, and the
//! next number for an alias. The Rust has no stages, levels or outlays, so these are not compared. See `run`.
#![allow(dead_code, unused_imports)]
mod cases;
mod df;
mod indexmap;
mod orig;
mod port;
use df::LogicalPlan as L;
use df::*;
use port::*;
use std::collections::BTreeMap;
use std::sync::Arc;
use std::sync::atomic::Ordering::Relaxed;
struct R(u64);
impl R {
    fn n(&mut self, k: usize) -> usize {
        self.0 ^= self.0 << 13;
        self.0 ^= self.0 >> 7;
        self.0 ^= self.0 << 17;
        ((self.0 >> 11) % k as u64) as usize
    }
    fn p(&mut self, pc: usize) -> bool {
        self.n(100) < pc
    }
}
fn rf(r: &mut R, fs: &[Column]) -> Expr {
    let c = fs[r.n(fs.len())].clone();
    if r.p(35) { Expr::Column(Column::new(None, &c.name)) } else { Expr::Column(c) }
}
fn lit(r: &mut R) -> Expr {
    Expr::Literal(["kind", "name", "null", "log.event"][r.n(4)].into())
}
fn ex(r: &mut R, fs: &[Column], d: usize) -> Expr {
    if d == 0 {
        return if r.p(75) { rf(r, fs) } else { lit(r) };
    }
    match r.n(10) {
        0 => rf(r, fs),
        1 => lit(r),
        2 | 3 | 4 => {
            let k = if r.p(75) { 0 } else { d - 1 };
            let a = ex(r, fs, k);
            Expr::Call(0, vec![a, lit(r)])
        }
        5 => Expr::Call(1, vec![ex(r, fs, d - 1), ex(r, fs, d - 1)]),
        6 => Expr::Call(2, vec![ex(r, fs, d - 1)]),
        7 => {
            let k = r.n(3);
            Expr::Call(3, (0..k).map(|_| ex(r, fs, d - 1)).collect())
        }
        8 => {
            let e = ex(r, fs, d - 1);
            al(r, e)
        }
        _ => Expr::Call(5, vec![ex(r, fs, d - 1)]),
    }
}
fn al(r: &mut R, e: Expr) -> Expr {
    if r.p(45) {
        e.alias(&format!("__datafusion_extracted_{}", r.n(4)))
    } else {
        let q = match r.n(5) {
            0 => Some("s".into()),
            1 => Some("log".to_string()),
            _ => None,
        };
        e.alias_qualified(q, ["event", "start", "e", "m", "log.event", "a"][r.n(6)])
    }
}
fn top(r: &mut R, fs: &[Column]) -> Expr {
    match r.n(10) {
        0..=3 => {
            let c = fs[r.n(fs.len())].clone();
            Expr::Column(c)
        }
        4 => rf(r, fs),
        5..=7 => {
            let e = ex(r, fs, 2);
            al(r, e)
        }
        _ => ex(r, fs, 2),
    }
}
fn tbl(r: &mut R) -> L {
    match r.n(5) {
        0 | 1 => mk_table(0, "log", &["event", "start"]),
        2 => mk_table(1, "clip", &["event"]),
        3 => mk_table(2, "t", &["e", "start"]),
        _ => mk_table(3, "u", &["a", "__datafusion_extracted_1"]),
    }
}
fn pl(r: &mut R, d: usize) -> L {
    if d == 0 {
        return tbl(r);
    }
    loop {
        let k = r.n(14);
        let i = pl(r, d - 1);
        let fs = i.schema().cols();
        let x = match k {
            0..=3 => prj(r, i),
            4 | 5 => {
                let e = ex(r, &fs, 3);
                mk_filter(e, i)
            }
            6 => {
                let n = 1 + r.n(2);
                mk_sort((0..n).map(|_| ex(r, &fs, 2)).collect(), i)
            }
            7 | 8 => mk_limit(r.n(3) as u32, i),
            9 => {
                let g = r.n(3);
                let t = r.n(2) + (g == 0) as usize;
                let gs = (0..g).map(|_| top(r, &fs)).filter(|e| !e.is_total()).collect();
                let ts = (0..t)
                    .map(|_| {
                        let x = Expr::Call(4, vec![ex(r, &fs, 2)]);
                        if r.p(50) { al(r, x) } else { x }
                    })
                    .collect();
                mk_agg(gs, ts, i)
            }
            10 | 11 => {
                let z = r.n(d);
                let j = pl(r, z);
                let mut all = fs.clone();
                all.extend(j.schema().cols());
                let n = r.n(3);
                let cs = (0..n).map(|_| ex(r, &all, 3)).collect();
                mk_join(r.n(8) as u8, cs, i, j)
            }
            12 => {
                let s = ["s", "log", "q"][r.n(3)];
                mk_sub(s, i)
            }
            _ => {
                let n = 1 + r.n(3);
                let mut is = vec![i.clone()];
                for _ in 1..n {
                    if r.p(50) {
                        is.push(i.clone())
                    } else {
                        let mut best = i.clone();
                        for _ in 0..6 {
                            let z = r.n(d);
                            let j = pl(r, z);
                            if j.schema().f.len() == i.schema().f.len() {
                                best = j;
                                break;
                            }
                        }
                        is.push(best)
                    }
                }
                mk_union(is)
            }
        };
        if let Ok(x) = x {
            if x.size() <= 14 {
                return x;
            }
        }
    }
}
fn prj(r: &mut R, i: L) -> Result<L> {
    let fs = i.schema().cols();
    let n = 1 + r.n(4);
    let mut es: Vec<Expr> = (0..n).map(|_| top(r, &fs)).collect();
    if r.p(30) {
        es.extend(fs.iter().map(|c| Expr::Column(c.clone())));
        es.dedup();
    }
    Ok(L::Projection(Projection::try_new(es, Arc::new(i))?))
}
pub fn se(e: &Expr) -> String {
    match e {
        Expr::Column(c) => format!("{}", c.flat_name().replace("__datafusion_extracted_", "X")),
        Expr::Literal(s) => format!("'{s}'"),
        Expr::Alias(a) => {
            format!("{} AS {}{}", se(&a.expr), a.relation.as_ref().map(|q| format!("{q}|")).unwrap_or_default(), a.name.replace("__datafusion_extracted_", "X"))
        }
        Expr::Call(n, es) => format!("{}({})", FNS[*n].0, es.iter().map(se).collect::<Vec<_>>().join(" ")),
    }
}
pub fn sp(p: &L) -> String {
    let ls = |v: &Vec<Expr>| v.iter().map(se).collect::<Vec<_>>().join(", ");
    match p {
        L::Projection(q) => format!("P[{}]({})", ls(&q.expr), sp(&q.input)),
        L::Filter(q) => format!("F[{}]({})", se(&q.e), sp(&q.input)),
        L::Sort(q) => format!("S[{}]({})", ls(&q.ks), sp(&q.input)),
        L::Limit(q) => format!("L({})", sp(&q.input)),
        L::Aggregate(q) => format!("A[{};{}]({})", ls(&q.gs), ls(&q.ts), sp(&q.input)),
        L::Join(q) => format!("J{}[{}]({}, {})", q.kind, ls(&q.cs), sp(&q.l), sp(&q.r)),
        L::SubqueryAlias(q) => format!("{}:({})", q.alias, sp(&q.input)),
        L::Union(q) => format!("U({})", q.is.iter().map(|x| sp(x)).collect::<Vec<_>>().join(", ")),
        L::TableScan(t) => format!("{}", ["log", "clip", "t", "u"][t.k]),
        _ => "?".into(),
    }
}
fn so(o: &O) -> String {
    match o {
        O::Built(p, n) => format!("BUILT {} #{n}", sp(p)),
        O::No(n) => format!("NO #{n}"),
        O::Ref(q, s, l, n) => format!("REFUSED {q} stage {s} level {l} #{n}"),
    }
}

/// what the Rust makes of a plan: no stage, no level
fn rust(push: bool, p: &L) -> O {
    let g = Arc::new(alias::AliasGenerator { n: std::cell::Cell::new(100) });
    let r = if push { orig::try_push_input(p, &g) } else { orig::extract_from_plan(p.clone(), &g).map(|t| if t.transformed { Some(t.data) } else { None }) };
    match r {
        Ok(Some(q)) => O::Built(q, g.n.get()),
        Ok(None) => O::No(g.n.get()),
        Err(e) => O::Ref(e.0, 0, 0, g.n.get()),
    }
}
fn ported(push: bool, a: &A, p: &L) -> O {
    if push { a.push(p, 100) } else { a.extract(p, 100) }
}
fn same(a: &O, b: &O) -> bool {
    match (a, b) {
        (O::Built(p, n), O::Built(q, m)) => p == q && n == m,
        (O::No(n), O::No(m)) => n == m,
        (O::Ref(x, _, _, n), O::Ref(y, _, _, m)) => x == y && n == m,
        _ => false,
    }
}
fn kind(o: &O) -> String {
    match o {
        O::Built(..) => "built".into(),
        O::No(_) => "no change".into(),
        O::Ref(q, ..) => format!("refused with {q}"),
    }
}

/// n random plans, with all points followed or none; the shortest plan of each way to differ is printed
fn compare(push: bool, on: bool, fields: usize, n: usize, seed: u64) {
    MAXF.store(fields, Relaxed);
    let (a, mut r) = (A::new(on), R(seed * 2654435761 + 88172645463325252));
    let (mut count, mut alike) = (BTreeMap::<String, (usize, String)>::new(), 0);
    let mut done = 0;
    while done < n {
        let d = 1 + r.n(5);
        let mut p = pl(&mut r, d);
        if push && !matches!(p, L::Projection(_)) {
            match prj(&mut r, p) {
                Ok(x) => p = x,
                Err(_) => continue,
            }
        }
        done += 1;
        let (o, s) = (rust(push, &p), ported(push, &a, &p));
        if same(&o, &s) {
            alike += 1;
            count.entry(format!("both {}", kind(&o))).or_default().0 += 1;
            continue;
        }
        let c = count.entry(format!("Rust {}, port {}", kind(&o), kind(&s))).or_default();
        c.0 += 1;
        let t = format!("               plan {}\n               Rust {}\n               port {}", sp(&p), so(&o), so(&s));
        if c.1.is_empty() || t.len() < c.1.len() {
            c.1 = t
        }
    }
    println!(
        "{}, at most {fields} fields, {}: {n} plans, {alike} alike, {} not",
        if push { "push" } else { "extract" },
        if on { "all points followed" } else { "no point followed" },
        n - alike
    );
    for (k, v) in &count {
        println!("{:10} {k}", v.0);
        if !v.1.is_empty() {
            println!("{}", v.1)
        }
    }
    for (k, f) in a.failed.iter().enumerate() {
        if f.get() > 0 {
            println!("{:10} times it failed that {}", f.get(), TESTS[k])
        }
    }
}
fn main() {
    let a: Vec<u64> = std::env::args().skip(1).map(|s| s.parse().unwrap()).collect();
    for (name, push, p) in cases::cases() {
        let (o, s, t) = (rust(push, &p), ported(push, &A::new(true), &p), ported(push, &A::new(false), &p));
        println!("{name}: Rust {}, port {}{}", kind(&o), kind(&s), if same(&o, &t) { "" } else { "; without the points it differs" });
    }
    for fields in [64, 6] {
        for on in [false, true] {
            for push in [true, false] {
                compare(push, on, fields, a[0] as usize, a[1])
            }
        }
    }
}
