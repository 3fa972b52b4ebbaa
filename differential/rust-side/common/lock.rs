//! The lock of the pointers stand-in: parking_lot's. One that is already taken in a conflicting way panics ("deadlock")
//! instead of hanging: there is one thread.
pub use parking_lot::{RwLock, RwLockReadGuard, RwLockWriteGuard};

pub fn rd<T>(l: &RwLock<T>) -> RwLockReadGuard<'_, T> {
    l.try_read_recursive().unwrap_or_else(|| panic!("deadlock (read)"))
}
pub fn wr<T>(l: &RwLock<T>) -> RwLockWriteGuard<'_, T> {
    l.try_write().unwrap_or_else(|| panic!("deadlock (write)"))
}
