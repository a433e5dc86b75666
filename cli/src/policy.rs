use crate::failure::Outcome;
use std::path::Path;
pub struct Policy;
impl Policy {
    pub fn read(_f: &Path) -> Outcome<Policy> { Ok(Policy) }
    pub fn bind(&self, _i: &[String], _o: &[String]) -> Outcome<Bound> { Ok(Bound) }
}
pub struct Bound;
impl Bound {
    pub fn none(_i: usize, _o: usize) -> Bound { Bound }
    pub fn is_foreign(&self, _i: usize, _c: u64) -> bool { false }
    pub fn is_protected(&self, _o: usize, _c: u64) -> bool { true }
    pub fn value(&self, _i: usize, _c: u64) -> Option<bool> { None }
    pub fn any_foreign(&self) -> bool { true }
    pub fn same_protection(&self, _c: u64) -> Option<u64> { None }
    pub fn ever_protected(&self, _o: usize) -> bool { true }
}
