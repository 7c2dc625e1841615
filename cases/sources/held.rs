#![no_std]
pub static NAMES: [&str; 2] = ["first", "second"];
pub trait Held { fn get(&self, at: usize) -> Option<u32>; }
impl Held for [u32] { fn get(&self, at: usize) -> Option<u32> { self.iter().rev().nth(at).copied() } }
pub fn counted(all: &[u32], by: &dyn Fn(u32) -> bool) -> usize { all.iter().filter(|it| by(**it)).count() + NAMES[all.len()].len() }
static FEW: Few = Few(&[1, 2]);
pub fn of_all() -> &'static dyn Held { &FEW }
pub struct Few(pub &'static [u32]);
impl Held for Few { fn get(&self, at: usize) -> Option<u32> { Some(self.0[at]) } }
