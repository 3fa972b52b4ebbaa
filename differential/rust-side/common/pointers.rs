//! Stand-in for fusion-blossom's src/pointers.rs (its safe variant), written from how the three files use it:
//! Arc<RwLock<T>> with pointer identity as equality. The lock is that of lock.rs, or, for timing, the one of
//! lock_none.rs that is none.
#![allow(dead_code)]
use super::util::FastClearTimestamp;
use super::lock::{rd, wr, RwLock, RwLockReadGuard, RwLockWriteGuard};
use std::sync::{Arc, Weak};

macro_rules! lock_write {
    ($variable:ident, $lock:expr) => {
        #[allow(unused_mut)]
        let mut $variable = $lock.write();
    };
    ($variable:ident, $lock:expr, $timestamp:expr) => {
        #[allow(unused_mut)]
        let mut $variable = $lock.write($timestamp);
    };
}

pub trait FastClear {
    fn hard_clear(&mut self);
    fn get_timestamp(&self) -> FastClearTimestamp;
    fn set_timestamp(&mut self, timestamp: FastClearTimestamp);
    fn dynamic_clear(&mut self, active_timestamp: FastClearTimestamp) {
        if self.get_timestamp() != active_timestamp {
            self.hard_clear();
            self.set_timestamp(active_timestamp);
        }
    }
    fn debug_assert_dynamic_cleared(&self, active_timestamp: FastClearTimestamp) {
        debug_assert!(
            self.get_timestamp() == active_timestamp,
            "bug detected: not dynamically cleared"
        );
    }
}

macro_rules! pair {
    ($ptr:ident, $weak:ident) => {
        pub struct $ptr<T>(Arc<RwLock<T>>);
        pub struct $weak<T>(Weak<RwLock<T>>);
        impl<T> Clone for $ptr<T> {
            fn clone(&self) -> Self {
                Self(self.0.clone())
            }
        }
        impl<T> Clone for $weak<T> {
            fn clone(&self) -> Self {
                Self(self.0.clone())
            }
        }
        impl<T> PartialEq for $ptr<T> {
            fn eq(&self, o: &Self) -> bool {
                Arc::ptr_eq(&self.0, &o.0)
            }
        }
        impl<T> Eq for $ptr<T> {}
        impl<T> PartialEq for $weak<T> {
            fn eq(&self, o: &Self) -> bool {
                self.0.ptr_eq(&o.0)
            }
        }
        impl<T> Eq for $weak<T> {}
        impl<T> $ptr<T> {
            pub fn new_value(obj: T) -> Self {
                Self(Arc::new(RwLock::new(obj)))
            }
            pub fn ptr(&self) -> &Arc<RwLock<T>> {
                &self.0
            }
            pub fn downgrade(&self) -> $weak<T> {
                $weak(Arc::downgrade(&self.0))
            }
        }
        impl<T> $weak<T> {
            pub fn upgrade(&self) -> Option<$ptr<T>> {
                self.0.upgrade().map($ptr)
            }
            pub fn upgrade_force(&self) -> $ptr<T> {
                $ptr(self.0.upgrade().unwrap())
            }
        }
    };
}
pair!(ArcManualSafeLock, WeakManualSafeLock);
pair!(FastClearArcManualSafeLockDangerous, FastClearWeakManualSafeLockDangerous);

impl<T> ArcManualSafeLock<T> {
    pub fn read_recursive(&self) -> RwLockReadGuard<'_, T> {
        rd(&self.0)
    }
    pub fn write(&self) -> RwLockWriteGuard<'_, T> {
        wr(&self.0)
    }
}

impl<T: FastClear> FastClearArcManualSafeLockDangerous<T> {
    pub fn read_recursive(&self, active_timestamp: FastClearTimestamp) -> RwLockReadGuard<'_, T> {
        let g = rd(&self.0);
        g.debug_assert_dynamic_cleared(active_timestamp);
        g
    }
    pub fn read_recursive_force(&self) -> RwLockReadGuard<'_, T> {
        rd(&self.0)
    }
    pub fn write(&self, active_timestamp: FastClearTimestamp) -> RwLockWriteGuard<'_, T> {
        let g = wr(&self.0);
        g.debug_assert_dynamic_cleared(active_timestamp);
        g
    }
    pub fn write_force(&self) -> RwLockWriteGuard<'_, T> {
        wr(&self.0)
    }
    pub fn dynamic_clear(&self, active_timestamp: FastClearTimestamp) {
        self.write_force().dynamic_clear(active_timestamp)
    }
}
