//! Stand-ins for what `extract_leaf_expressions.rs` uses of Apache DataFusion's other crates: columns, expressions, schemas, plans and
//! `Projection::try_new`. They follow the rules of `docs/RULES.md`, not those crates: an expression is a column, literal, alias or
//! call, a list is refused with 6, 7 or 8 by this library's questions, and an alias is rendered as its name. `has_all_column_refs`,
//! `schema_columns` and `replace_cols_by_name` do what DataFusion's functions of these names do (Apache License 2.0, see NOTICE).
use std::collections::{HashMap, HashSet};
use std::sync::Arc;
pub type TableReference = String;
#[derive(Debug, Clone, PartialEq)]
pub struct DataFusionError(pub u32);
pub type Result<T> = std::result::Result<T, DataFusionError>;
pub mod error {
    pub use super::DataFusionError;
}
pub mod alias {
    pub struct AliasGenerator {
        pub n: std::cell::Cell<u64>,
    }
    impl AliasGenerator {
        pub fn next(&self, p: &str) -> String {
            let k = self.n.get();
            self.n.set(k + 1);
            format!("{p}_{k}")
        }
    }
}
pub mod tree_node {
    #[derive(Clone, Copy, PartialEq, Debug)]
    pub enum TreeNodeRecursion {
        Continue,
        Jump,
        Stop,
    }
    #[derive(Debug)]
    pub struct Transformed<T> {
        pub data: T,
        pub transformed: bool,
        pub tnr: TreeNodeRecursion,
    }
    impl<T> Transformed<T> {
        pub fn yes(d: T) -> Self {
            Self { data: d, transformed: true, tnr: TreeNodeRecursion::Continue }
        }
        pub fn no(d: T) -> Self {
            Self { data: d, transformed: false, tnr: TreeNodeRecursion::Continue }
        }
    }
    pub trait TreeNode {}
}
use tree_node::*;
#[derive(Clone, Debug, PartialEq, Eq, Hash)]
pub struct Column {
    pub relation: Option<TableReference>,
    pub name: String,
}
impl Column {
    pub fn new(r: Option<TableReference>, n: &str) -> Self {
        Self { relation: r, name: n.to_string() }
    }
    pub fn new_unqualified(n: &str) -> Self {
        Self::new(None, n)
    }
    pub fn name(&self) -> &str {
        &self.name
    }
    pub fn flat_name(&self) -> String {
        qualified_name(self.relation.as_ref(), &self.name)
    }
}
pub fn qualified_name(q: Option<&TableReference>, n: &str) -> String {
    match q {
        Some(q) => format!("{q}.{n}"),
        None => n.to_string(),
    }
}
#[derive(Clone, Debug, PartialEq, Eq)]
pub struct Field {
    n: String,
}
impl Field {
    pub fn name(&self) -> &String {
        &self.n
    }
}
pub type FieldRef = Arc<Field>;
impl From<(Option<&TableReference>, &FieldRef)> for Column {
    fn from(x: (Option<&TableReference>, &FieldRef)) -> Self {
        Column::new(x.0.cloned(), x.1.name())
    }
}
impl From<(Option<&TableReference>, &FieldRef)> for Expr {
    fn from(x: (Option<&TableReference>, &FieldRef)) -> Self {
        Expr::Column(Column::from(x))
    }
}
#[derive(Clone, Debug, PartialEq, Eq)]
pub struct DFSchema {
    pub q: Vec<Option<TableReference>>,
    pub f: Vec<FieldRef>,
}
impl DFSchema {
    pub fn of(cs: Vec<Column>) -> Self {
        Self { q: cs.iter().map(|c| c.relation.clone()).collect(), f: cs.into_iter().map(|c| Arc::new(Field { n: c.name })).collect() }
    }
    pub fn cols(&self) -> Vec<Column> {
        self.iter().map(Column::from).collect()
    }
    pub fn iter(&self) -> impl Iterator<Item = (Option<&TableReference>, &FieldRef)> {
        self.q.iter().map(|q| q.as_ref()).zip(self.f.iter())
    }
    pub fn fields(&self) -> &Vec<FieldRef> {
        &self.f
    }
    pub fn qualified_field(&self, i: usize) -> (Option<&TableReference>, &FieldRef) {
        (self.q[i].as_ref(), &self.f[i])
    }
    pub fn has_column(&self, c: &Column) -> bool {
        self.cols().iter().any(|d| d.name == c.name && (c.relation.is_none() || c.relation == d.relation))
    }
}
#[derive(Clone, Debug, PartialEq, Eq, Hash)]
pub struct Alias {
    pub expr: Box<Expr>,
    pub relation: Option<TableReference>,
    pub name: String,
}
#[derive(Clone, Debug, PartialEq, Eq, Hash)]
pub enum Expr {
    Column(Column),
    Literal(String),
    Alias(Alias),
    Call(usize, Vec<Expr>),
}
#[derive(Clone, Copy, Debug, PartialEq, Eq)]
pub enum ExpressionPlacement {
    Column,
    Literal,
    MoveTowardsLeafNodes,
    KeepInPlace,
}
use ExpressionPlacement as P;
// name, rule, strict
pub const FNS: [(&str, u8, bool); 6] = [("get", 1, true), ("equal", 0, true), ("missing", 2, false), ("any", 3, true), ("sum", 4, true), ("opt", 3, false)];
impl AsRef<Expr> for Expr {
    fn as_ref(&self) -> &Expr {
        self
    }
}
impl Expr {
    pub fn alias(self, n: &str) -> Expr {
        self.alias_qualified(None, n)
    }
    pub fn alias_qualified(self, q: Option<TableReference>, n: &str) -> Expr {
        Expr::Alias(Alias { expr: Box::new(self), relation: q, name: n.to_string() })
    }
    pub fn unalias(self) -> Expr {
        match self {
            Expr::Alias(a) => *a.expr,
            e => e,
        }
    }
    pub fn all_refs<'a>(&'a self, v: &mut Vec<&'a Column>) {
        match self {
            Expr::Column(c) => v.push(c),
            Expr::Literal(_) => {}
            Expr::Alias(a) => a.expr.all_refs(v),
            Expr::Call(_, es) => {
                for e in es {
                    e.all_refs(v)
                }
            }
        }
    }
    pub fn column_refs(&self) -> Vec<&Column> {
        let mut v = vec![];
        self.all_refs(&mut v);
        let mut o: Vec<&Column> = vec![];
        for c in v {
            if !o.contains(&c) {
                o.push(c)
            }
        }
        o
    }
    pub fn placement(&self) -> P {
        match self {
            Expr::Column(_) => P::Column,
            Expr::Literal(_) => P::Literal,
            Expr::Alias(a) => a.expr.placement(),
            Expr::Call(n, es) => {
                let ps: Vec<P> = es.iter().map(|e| e.placement()).collect();
                let m = match FNS[*n].1 {
                    0 | 4 => false,
                    1 => !ps.is_empty() && matches!(ps[0], P::Column | P::MoveTowardsLeafNodes) && ps[1..].iter().all(|p| *p == P::Literal),
                    2 => ps.iter().all(|p| *p != P::KeepInPlace) && ps.iter().any(|p| *p != P::Literal),
                    3 => true,
                    _ => unreachable!(),
                };
                if m { P::MoveTowardsLeafNodes } else { P::KeepInPlace }
            }
        }
    }
    pub fn schema_name(&self) -> String {
        match self {
            Expr::Column(c) => c.flat_name(),
            Expr::Literal(s) => s.clone(),
            Expr::Alias(a) => a.name.clone(),
            Expr::Call(n, es) => format!("{}({})", FNS[*n].0, es.iter().map(|e| e.schema_name()).collect::<Vec<_>>().join(" ")),
        }
    }
    pub fn field(&self) -> Column {
        match self {
            Expr::Column(c) => c.clone(),
            Expr::Alias(a) => Column::new(a.relation.clone(), &a.name),
            e => Column::new(None, &e.schema_name()),
        }
    }
    pub fn exists<F: FnMut(&Expr) -> Result<bool> + Copy>(&self, mut f: F) -> Result<bool> {
        if f(self)? {
            return Ok(true);
        }
        match self {
            Expr::Alias(a) => a.expr.exists(f),
            Expr::Call(_, es) => {
                for e in es {
                    if e.exists(f)? {
                        return Ok(true);
                    }
                }
                Ok(false)
            }
            _ => Ok(false),
        }
    }
    pub fn transform_down<F: FnMut(Expr) -> Result<Transformed<Expr>>>(self, mut f: F) -> Result<Transformed<Expr>> {
        self.td(&mut f)
    }
    fn td<F: FnMut(Expr) -> Result<Transformed<Expr>>>(self, f: &mut F) -> Result<Transformed<Expr>> {
        let t = f(self)?;
        if t.tnr != TreeNodeRecursion::Continue {
            return Ok(Transformed { data: t.data, transformed: t.transformed, tnr: TreeNodeRecursion::Continue });
        }
        let mut tr = t.transformed;
        let d = t.data.map_ch(&mut |e| {
            let x = e.td(f)?;
            tr |= x.transformed;
            Ok(x.data)
        })?;
        Ok(Transformed { data: d, transformed: tr, tnr: TreeNodeRecursion::Continue })
    }
    fn map_ch(self, f: &mut dyn FnMut(Expr) -> Result<Expr>) -> Result<Expr> {
        Ok(match self {
            Expr::Alias(a) => Expr::Alias(Alias { expr: Box::new(f(*a.expr)?), ..a }),
            Expr::Call(n, es) => Expr::Call(n, es.into_iter().map(|e| f(e)).collect::<Result<_>>()?),
            e => e,
        })
    }
    pub fn transform_up(self, f: &mut dyn FnMut(Expr) -> Result<Transformed<Expr>>) -> Result<Transformed<Expr>> {
        let d = self.map_ch(&mut |e| Ok(e.transform_up(f)?.data))?;
        f(d)
    }
    pub fn size(&self) -> usize {
        match self {
            Expr::Alias(a) => 1 + a.expr.size(),
            Expr::Call(_, es) => 1 + es.iter().map(|e| e.size()).sum::<usize>(),
            _ => 1,
        }
    }
    pub fn is_total(&self) -> bool {
        match self {
            Expr::Alias(a) => a.expr.is_total(),
            Expr::Call(n, _) => FNS[*n].1 == 4,
            _ => false,
        }
    }
    pub fn null_keeping(&self) -> bool {
        match self {
            Expr::Column(_) => true,
            Expr::Literal(s) => s == "null",
            Expr::Alias(a) => a.expr.null_keeping(),
            Expr::Call(n, es) => FNS[*n].2 && es.iter().any(|e| e.null_keeping()),
        }
    }
}
pub fn replace_cols_by_name(e: Expr, m: &HashMap<String, impl AsRef<Expr>>) -> Result<Expr> {
    Ok(e.transform_up(&mut |expr| {
        if let Expr::Column(c) = &expr
            && let Some(n) = m.get(&c.flat_name())
        {
            Ok(Transformed::yes(n.as_ref().clone()))
        } else {
            Ok(Transformed::no(expr))
        }
    })?
    .data)
}
#[derive(PartialEq, Eq, Hash, Debug)]
pub struct ColumnReference<'a> {
    pub relation: Option<&'a TableReference>,
    pub name: &'a str,
}
impl<'a> ColumnReference<'a> {
    pub fn new(relation: Option<&'a TableReference>, name: &'a str) -> Self {
        Self { relation, name }
    }
    pub fn new_unqualified(name: &'a str) -> Self {
        Self { relation: None, name }
    }
}
pub fn has_all_column_refs(expr: &Expr, schema_cols: &HashSet<ColumnReference>) -> bool {
    let column_refs = expr.column_refs();
    column_refs.iter().filter(|c| schema_cols.contains(&ColumnReference::new(c.relation.as_ref(), c.name()))).count() == column_refs.len()
}
pub fn schema_columns<'a>(schema: &'a DFSchema) -> HashSet<ColumnReference<'a>> {
    schema.iter().flat_map(|(q, f)| [ColumnReference::new(q, f.name()), ColumnReference::new_unqualified(f.name())]).collect()
}
#[derive(Clone, Debug, PartialEq)]
pub struct Projection {
    pub expr: Vec<Expr>,
    pub input: Arc<LogicalPlan>,
    pub schema: Arc<DFSchema>,
}
#[derive(Clone, Debug, PartialEq)]
pub struct SubqueryAlias {
    pub input: Arc<LogicalPlan>,
    pub alias: String,
    pub schema: Arc<DFSchema>,
}
#[derive(Clone, Debug, PartialEq)]
pub struct Filter {
    pub e: Expr,
    pub input: Arc<LogicalPlan>,
}
#[derive(Clone, Debug, PartialEq)]
pub struct Sort {
    pub ks: Vec<Expr>,
    pub input: Arc<LogicalPlan>,
}
#[derive(Clone, Debug, PartialEq)]
pub struct Limit {
    pub n: u32,
    pub input: Arc<LogicalPlan>,
}
#[derive(Clone, Debug, PartialEq)]
pub struct Aggregate {
    pub gs: Vec<Expr>,
    pub ts: Vec<Expr>,
    pub input: Arc<LogicalPlan>,
    pub schema: Arc<DFSchema>,
}
#[derive(Clone, Debug, PartialEq)]
pub struct Join {
    pub kind: u8,
    pub cs: Vec<Expr>,
    pub l: Arc<LogicalPlan>,
    pub r: Arc<LogicalPlan>,
    pub schema: Arc<DFSchema>,
}
#[derive(Clone, Debug, PartialEq)]
pub struct Union {
    pub is: Vec<Arc<LogicalPlan>>,
    pub schema: Arc<DFSchema>,
}
#[derive(Clone, Debug, PartialEq)]
pub struct Table {
    pub k: usize,
    pub schema: Arc<DFSchema>,
}
#[derive(Clone, Debug, PartialEq)]
pub enum LogicalPlan {
    Projection(Projection),
    Filter(Filter),
    Sort(Sort),
    Limit(Limit),
    Aggregate(Aggregate),
    Join(Join),
    SubqueryAlias(SubqueryAlias),
    Union(Union),
    Unnest(()),
    TableScan(Table),
}
use LogicalPlan as L;
pub static MAXF: std::sync::atomic::AtomicUsize = std::sync::atomic::AtomicUsize::new(64);
pub static MAXP: std::sync::atomic::AtomicUsize = std::sync::atomic::AtomicUsize::new(64);
pub fn resolves(fs: &[Column], r: &Column) -> bool {
    if r.relation.is_none() { fs.iter().filter(|f| f.name == r.name).count() == 1 } else { fs.contains(r) }
}
pub fn lawful(fs: &[Column]) -> bool {
    for i in 0..fs.len() {
        for j in i + 1..fs.len() {
            let (a, b) = (&fs[i], &fs[j]);
            if a.name == b.name && (a.relation == b.relation || a.relation.is_none() || b.relation.is_none()) {
                return false;
            }
        }
    }
    true
}
impl LogicalPlan {
    pub fn schema(&self) -> &Arc<DFSchema> {
        match self {
            L::Projection(p) => &p.schema,
            L::Filter(p) => p.input.schema(),
            L::Sort(p) => p.input.schema(),
            L::Limit(p) => p.input.schema(),
            L::Aggregate(p) => &p.schema,
            L::Join(p) => &p.schema,
            L::SubqueryAlias(p) => &p.schema,
            L::Union(p) => &p.schema,
            L::TableScan(p) => &p.schema,
            L::Unnest(_) => unreachable!(),
        }
    }
    pub fn inputs(&self) -> Vec<&LogicalPlan> {
        match self {
            L::Projection(p) => vec![&p.input],
            L::Filter(p) => vec![&p.input],
            L::Sort(p) => vec![&p.input],
            L::Limit(p) => vec![&p.input],
            L::Aggregate(p) => vec![&p.input],
            L::Join(p) => vec![&p.l, &p.r],
            L::SubqueryAlias(p) => vec![&p.input],
            L::Union(p) => p.is.iter().map(|x| x.as_ref()).collect(),
            _ => vec![],
        }
    }
    pub fn expressions(&self) -> Vec<Expr> {
        match self {
            L::Projection(p) => p.expr.clone(),
            L::Filter(p) => vec![p.e.clone()],
            L::Sort(p) => p.ks.clone(),
            L::Aggregate(p) => [p.gs.clone(), p.ts.clone()].concat(),
            L::Join(p) => p.cs.clone(),
            _ => vec![],
        }
    }
    pub fn map_expressions<F: FnMut(Expr) -> Result<Transformed<Expr>>>(self, mut f: F) -> Result<Transformed<LogicalPlan>> {
        let mut tr = false;
        let mut g = |es: Vec<Expr>| -> Result<Vec<Expr>> {
            es.into_iter()
                .map(|e| {
                    let t = f(e)?;
                    tr |= t.transformed;
                    Ok(t.data)
                })
                .collect()
        };
        let d = match self {
            L::Projection(mut p) => {
                p.expr = g(p.expr)?;
                L::Projection(p)
            }
            L::Filter(mut p) => {
                p.e = g(vec![p.e])?.pop().unwrap();
                L::Filter(p)
            }
            L::Sort(mut p) => {
                p.ks = g(p.ks)?;
                L::Sort(p)
            }
            L::Aggregate(mut p) => {
                p.gs = g(p.gs)?;
                p.ts = g(p.ts)?;
                L::Aggregate(p)
            }
            L::Join(mut p) => {
                p.cs = g(p.cs)?;
                L::Join(p)
            }
            x => x,
        };
        Ok(Transformed { data: d, transformed: tr, tnr: TreeNodeRecursion::Continue })
    }
    pub fn with_new_exprs(&self, es: Vec<Expr>, mut is: Vec<LogicalPlan>) -> Result<LogicalPlan> {
        match self {
            L::Projection(_) => Ok(L::Projection(Projection::try_new(es, Arc::new(is.pop().unwrap()))?)),
            L::Filter(_) => mk_filter(es[0].clone(), is.pop().unwrap()),
            L::Sort(_) => mk_sort(es, is.pop().unwrap()),
            L::Limit(p) => mk_limit(p.n, is.pop().unwrap()),
            L::Aggregate(p) => {
                let k = p.gs.len();
                mk_agg(es[..k].to_vec(), es[k..].to_vec(), is.pop().unwrap())
            }
            L::Join(p) => {
                let r = is.pop().unwrap();
                let l = is.pop().unwrap();
                mk_join(p.kind, es, l, r)
            }
            L::SubqueryAlias(p) => mk_sub(&p.alias, is.pop().unwrap()),
            L::Union(_) => mk_union(is),
            x => Ok(x.clone()),
        }
    }
    pub fn size(&self) -> usize {
        1 + self.inputs().iter().map(|i| i.size()).sum::<usize>()
    }
}
fn passed(ins: &[Column], joint: &[Column], p: LogicalPlan) -> Result<LogicalPlan> {
    let es = p.expressions();
    for e in &es {
        let mut v = vec![];
        e.all_refs(&mut v);
        for r in v {
            if !resolves(ins, r) {
                return Err(DataFusionError(6));
            }
        }
    }
    if !lawful(joint) {
        return Err(DataFusionError(7));
    }
    let o = std::sync::atomic::Ordering::Relaxed;
    let shown = matches!(p, L::Projection(_) | L::Aggregate(_));
    if p.schema().f.len() > MAXF.load(o)
        || p.size() > MAXP.load(o)
        || es.iter().any(|e| e.size() > 256)
        || (shown && es.iter().any(|e| !matches!(e, Expr::Column(_) | Expr::Alias(_)) && e.schema_name().len() > 255))
    {
        return Err(DataFusionError(8));
    }
    Ok(p)
}
impl Projection {
    pub fn try_new(expr: Vec<Expr>, input: Arc<LogicalPlan>) -> Result<Projection> {
        let fs: Vec<Column> = expr.iter().map(|e| e.field()).collect();
        let ins = input.schema().cols();
        match passed(&ins, &fs, L::Projection(Projection { expr, input, schema: Arc::new(DFSchema::of(fs.clone())) }))? {
            L::Projection(p) => Ok(p),
            _ => unreachable!(),
        }
    }
}
pub fn mk_filter(e: Expr, i: LogicalPlan) -> Result<LogicalPlan> {
    let c = i.schema().cols();
    passed(&c, &c, L::Filter(Filter { e, input: Arc::new(i) }))
}
pub fn mk_sort(ks: Vec<Expr>, i: LogicalPlan) -> Result<LogicalPlan> {
    let c = i.schema().cols();
    passed(&c, &c, L::Sort(Sort { ks, input: Arc::new(i) }))
}
pub fn mk_limit(n: u32, i: LogicalPlan) -> Result<LogicalPlan> {
    let c = i.schema().cols();
    passed(&c, &c, L::Limit(Limit { n, input: Arc::new(i) }))
}
pub fn mk_agg(gs: Vec<Expr>, ts: Vec<Expr>, i: LogicalPlan) -> Result<LogicalPlan> {
    let c = i.schema().cols();
    let fs: Vec<Column> = gs.iter().chain(ts.iter()).map(|e| e.field()).collect();
    passed(&c, &fs.clone(), L::Aggregate(Aggregate { gs, ts, input: Arc::new(i), schema: Arc::new(DFSchema::of(fs)) }))
}
pub fn mk_join(kind: u8, cs: Vec<Expr>, l: LogicalPlan, r: LogicalPlan) -> Result<LogicalPlan> {
    let mut c = l.schema().cols();
    let rc = r.schema().cols();
    let s = match kind {
        0..=3 => [c.clone(), rc.clone()].concat(),
        4 | 5 => c.clone(),
        _ => rc.clone(),
    };
    c.extend(rc);
    passed(&c, &c, L::Join(Join { kind, cs, l: Arc::new(l), r: Arc::new(r), schema: Arc::new(DFSchema::of(s)) }))
}
pub fn mk_sub(n: &str, i: LogicalPlan) -> Result<LogicalPlan> {
    let fs: Vec<Column> = i.schema().cols().into_iter().map(|c| Column::new(Some(n.to_string()), &c.name)).collect();
    passed(&[], &fs.clone(), L::SubqueryAlias(SubqueryAlias { input: Arc::new(i), alias: n.to_string(), schema: Arc::new(DFSchema::of(fs)) }))
}
pub fn mk_union(is: Vec<LogicalPlan>) -> Result<LogicalPlan> {
    let w = is[0].schema().f.len();
    if is.iter().any(|i| i.schema().f.len() != w) {
        return Err(DataFusionError(3));
    }
    let fs: Vec<Column> = is[0].schema().cols().into_iter().map(|c| Column::new(None, &c.name)).collect();
    passed(&[], &fs.clone(), L::Union(Union { is: is.into_iter().map(Arc::new).collect(), schema: Arc::new(DFSchema::of(fs)) }))
}
pub fn mk_table(k: usize, q: &str, ns: &[&str]) -> LogicalPlan {
    L::TableScan(Table { k, schema: Arc::new(DFSchema::of(ns.iter().map(|n| Column::new(Some(q.to_string()), n)).collect())) })
}
