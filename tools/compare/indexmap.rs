//! Stand-ins for `IndexMap` and `IndexSet`: entries in the order in which they were first inserted.
#[derive(Clone, Debug)]
pub struct IndexMap<K, V> {
    v: Vec<(K, V)>,
}
impl<K: Eq, V> IndexMap<K, V> {
    pub fn new() -> Self {
        Self { v: vec![] }
    }
    pub fn get(&self, k: &K) -> Option<&V> {
        self.v.iter().find(|x| &x.0 == k).map(|x| &x.1)
    }
    pub fn insert(&mut self, k: K, v: V) {
        if let Some(x) = self.v.iter_mut().find(|x| x.0 == k) { x.1 = v } else { self.v.push((k, v)) }
    }
    pub fn is_empty(&self) -> bool {
        self.v.is_empty()
    }
    pub fn iter(&self) -> impl Iterator<Item = (&K, &V)> {
        self.v.iter().map(|x| (&x.0, &x.1))
    }
}
impl<K: Eq, V> FromIterator<(K, V)> for IndexMap<K, V> {
    fn from_iter<I: IntoIterator<Item = (K, V)>>(i: I) -> Self {
        let mut m = Self::new();
        for (k, v) in i {
            m.insert(k, v)
        }
        m
    }
}
#[derive(Clone, Debug)]
pub struct IndexSet<K> {
    v: Vec<K>,
}
impl<K: Eq> IndexSet<K> {
    pub fn new() -> Self {
        Self { v: vec![] }
    }
    pub fn insert(&mut self, k: K) {
        if !self.v.contains(&k) {
            self.v.push(k)
        }
    }
    pub fn contains(&self, k: &K) -> bool {
        self.v.contains(k)
    }
    pub fn iter(&self) -> std::slice::Iter<'_, K> {
        self.v.iter()
    }
}
impl<K: Eq> FromIterator<K> for IndexSet<K> {
    fn from_iter<I: IntoIterator<Item = K>>(i: I) -> Self {
        let mut m = Self::new();
        for k in i {
            m.insert(k)
        }
        m
    }
}
impl<'a, K> IntoIterator for &'a IndexSet<K> {
    type Item = &'a K;
    type IntoIter = std::slice::Iter<'a, K>;
    fn into_iter(self) -> Self::IntoIter {
        self.v.iter()
    }
}
