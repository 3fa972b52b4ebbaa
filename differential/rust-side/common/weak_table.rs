//! Stand-in for weak_table::PtrWeakKeyHashMap. Only partitioned modules use it: nothing here runs.
use super::pointers::*;
pub struct PtrWeakKeyHashMap<K, V>(Vec<(K, V)>);
impl<T, V> PtrWeakKeyHashMap<WeakManualSafeLock<T>, V> {
    pub fn new() -> Self {
        Self(Vec::new())
    }
    pub fn insert(&mut self, k: ArcManualSafeLock<T>, v: V) -> Option<V> {
        let k = k.downgrade();
        for e in self.0.iter_mut() {
            if e.0 == k {
                return Some(std::mem::replace(&mut e.1, v));
            }
        }
        self.0.push((k, v));
        None
    }
    pub fn get(&self, k: &ArcManualSafeLock<T>) -> Option<&V> {
        let k = k.downgrade();
        self.0.iter().find(|e| e.0 == k).map(|e| &e.1)
    }
}
impl<K, V> std::fmt::Debug for PtrWeakKeyHashMap<K, V> {
    fn fmt(&self, f: &mut std::fmt::Formatter) -> std::fmt::Result {
        write!(f, "PtrWeakKeyHashMap({})", self.0.len())
    }
}
