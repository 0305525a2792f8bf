//! The worked plans on which the page `docs/DIFFERENCES.md` and `crates/rewriting/specs/Worked.antt` say what the Rust does.
use crate::df::LogicalPlan as L;
use crate::df::*;
use std::sync::Arc;
fn c(q: &str, n: &str) -> Expr {
    Expr::Column(Column::new(Some(q.into()), n))
}
fn u(n: &str) -> Expr {
    Expr::Column(Column::new(None, n))
}
fn g(e: Expr, s: &str) -> Expr {
    Expr::Call(0, vec![e, Expr::Literal(s.into())])
}
fn x(n: u64) -> String {
    format!("__datafusion_extracted_{n}")
}
fn p(es: Vec<Expr>, i: L) -> L {
    L::Projection(Projection::try_new(es, Arc::new(i)).unwrap())
}
fn log() -> L {
    mk_table(0, "log", &["event", "start"])
}
fn clip() -> L {
    mk_table(1, "clip", &["event"])
}
pub fn cases() -> Vec<(&'static str, bool, L)> {
    let e = || g(c("log", "event"), "kind");
    let ev = || c("log", "event");
    let st = || c("log", "start");
    let cv = || c("clip", "event");
    let xa = |e: Expr| e.alias(&x(50));
    let eq = |a, b| Expr::Call(1, vec![a, b]);
    let nx = || p(vec![xa(g(c("log", "event"), "name")), c("log", "event")], log());
    let lim = |k| {
        let mut q = log();
        for _ in 0..k {
            q = mk_limit(3, q).unwrap()
        }
        q
    };
    let later = || Expr::Call(1, vec![c("log", "start"), Expr::Literal("50".into())]).alias("start");
    vec![
        ("sorted", false, mk_sort(vec![e()], log()).unwrap()),
        ("plain_needed", false, mk_filter(eq(g(u("p"), "kind"), u("q")), p(vec![ev().alias("p"), st().alias("q")], log())).unwrap()),
        ("under_sort", true, p(vec![ev(), xa(e())], mk_sort(vec![st()], log()).unwrap())),
        ("semi", false, mk_join(4, vec![eq(e(), g(cv(), "kind"))], log(), clip()).unwrap()),
        ("other_alias 1", true, p(vec![xa(e())], nx())),
        ("other_alias 2", true, p(vec![xa(e())], p(vec![ev()], mk_limit(9, nx()).unwrap()))),
        ("too_high 1", true, p(vec![ev(), st(), xa(e())], lim(62))),
        ("too_high 2", true, p(vec![ev(), later(), xa(e())], lim(62))),
        (
            "hidden_alias",
            true,
            p(
                vec![xa(g(u("start"), "kind"))],
                mk_sub("q", mk_join(5, vec![], log(), p(vec![xa(g(cv(), "kind")), cv().alias_qualified(Some("s".into()), "start")], clip())).unwrap()).unwrap(),
            ),
        ),
        (
            "held_above",
            true,
            p(vec![Expr::Call(2, vec![cv()]).alias("m"), xa(u(&x(50)))], mk_join(1, vec![], log(), p(vec![cv(), xa(g(cv(), "kind"))], clip())).unwrap()),
        ),
    ]
}
