//! A map under a lock, tested: README.md says how it is run.
mod potzendai;

use potzendai::{Map, Said, Connection};
use std::collections::BTreeMap;
use std::sync::Mutex;

#[derive(Default)]
struct LockedMap(Mutex<BTreeMap<u64, u64>>);

impl Connection for &LockedMap {
    fn get(&mut self, key: u64) -> Said {
        self.0.lock().unwrap().get(&key).copied().into()
    }
    fn put(&mut self, key: u64, value: u64) -> Said {
        self.0.lock().unwrap().insert(key, value).into()
    }
    fn del(&mut self, key: u64) -> Said {
        self.0.lock().unwrap().remove(&key).into()
    }
    fn scan(&mut self, low: u64, high: u64) -> Said {
        Said::Pairs(self.0.lock().unwrap().range(low..=high).map(|(key, value)| (*key, *value)).collect())
    }
    fn replace(&mut self, key: u64, old: u64, value: u64) -> Said {
        match self.0.lock().unwrap().get_mut(&key) {
            Some(found) if *found == old => Said::Told(std::mem::replace(found, value)),
            found => found.copied().into(),
        }
    }
}

impl Map for LockedMap {
    fn open(&self) -> Box<dyn Connection + '_> {
        Box::new(self)
    }
}

fn main() {
    std::process::exit(potzendai::run("LockedMap", LockedMap::default, std::env::args().skip(1)));
}
