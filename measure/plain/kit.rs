//! The part of Rattle's standard library that the stripped crates call, written with Rust's standard library. No
//! allocation returns an error.
#![allow(clippy::result_unit_err)]

use std::hash::{BuildHasher, BuildHasherDefault, Hash, Hasher};
use std::ops::{Deref, DerefMut, Index, IndexMut};
use std::slice::SliceIndex;

#[derive(Clone, Copy)]
pub struct Global;

#[derive(Debug)]
pub struct AllocError;

#[derive(Debug)]
pub struct AllocFailed<T>(pub T);

type Grown<T> = Result<T, AllocError>;

pub fn vec_in<T: Clone>(value: T, count: usize) -> Grown<Vec<T>> {
    Ok(Vec(vec![value; count]))
}

#[derive(PartialEq, Eq)]
pub struct Vec<T>(pub std::vec::Vec<T>);

impl<T> Vec<T> {
    pub fn new(_: Global) -> Vec<T> {
        Vec(std::vec::Vec::new())
    }
    pub fn with_capacity(_: Global, count: usize) -> Grown<Vec<T>> {
        Ok(Vec(std::vec::Vec::with_capacity(count)))
    }
    pub fn push(&mut self, value: T) -> Result<(), AllocFailed<T>> {
        self.0.push(value);
        Ok(())
    }
    /// Appends a value to a vector that has capacity for this value.
    pub fn push_reserved(&mut self, value: T) {
        unsafe {
            let count = self.0.len();
            self.0.as_mut_ptr().add(count).write(value);
            self.0.set_len(count + 1);
        }
    }
    pub fn reserve(&mut self, count: usize) -> Grown<()> {
        self.0.reserve(count);
        Ok(())
    }
    pub fn reserve_exact(&mut self, count: usize) -> Grown<()> {
        self.0.reserve_exact(count);
        Ok(())
    }
    pub fn allocator(&self) -> &Global {
        &Global
    }
    pub fn capacity(&self) -> usize {
        self.0.capacity()
    }
    pub fn clear(&mut self) {
        self.0.clear();
    }
    pub fn truncate(&mut self, count: usize) {
        self.0.truncate(count);
    }
    pub fn retain(&mut self, keeps: impl FnMut(&T) -> bool) {
        self.0.retain(keeps);
    }
    pub fn pop(&mut self) -> Option<T> {
        self.0.pop()
    }
}

impl<T: Ord> Vec<T> {
    pub fn sort(&mut self) -> Grown<()> {
        self.0.sort();
        Ok(())
    }
}

impl<T: PartialEq> Vec<T> {
    pub fn dedup(&mut self) {
        self.0.dedup();
    }
}

impl<T: Clone> Vec<T> {
    pub fn from_slice(_: Global, items: &[T]) -> Grown<Vec<T>> {
        Ok(Vec(items.to_vec()))
    }
    pub fn extend_from_slice(&mut self, items: &[T]) -> Grown<()> {
        self.0.extend_from_slice(items);
        Ok(())
    }
    pub fn resize(&mut self, count: usize, value: T) -> Grown<()> {
        self.0.resize(count, value);
        Ok(())
    }
}

impl<T> Deref for Vec<T> {
    type Target = [T];
    fn deref(&self) -> &[T] {
        &self.0
    }
}

impl<T> DerefMut for Vec<T> {
    fn deref_mut(&mut self) -> &mut [T] {
        &mut self.0
    }
}

// Each index is proved to be in range, so it is not checked.
impl<T, I: SliceIndex<[T]>> Index<I> for Vec<T> {
    type Output = I::Output;
    fn index(&self, place: I) -> &I::Output {
        unsafe { self.0.get_unchecked(place) }
    }
}

impl<T, I: SliceIndex<[T]>> IndexMut<I> for Vec<T> {
    fn index_mut(&mut self, place: I) -> &mut I::Output {
        unsafe { self.0.get_unchecked_mut(place) }
    }
}

impl<T> IntoIterator for Vec<T> {
    type Item = T;
    type IntoIter = std::vec::IntoIter<T>;
    fn into_iter(self) -> Self::IntoIter {
        self.0.into_iter()
    }
}

impl<'a, T> IntoIterator for &'a Vec<T> {
    type Item = &'a T;
    type IntoIter = std::slice::Iter<'a, T>;
    fn into_iter(self) -> Self::IntoIter {
        self.0.iter()
    }
}

impl<'a, T> IntoIterator for &'a mut Vec<T> {
    type Item = &'a mut T;
    type IntoIter = std::slice::IterMut<'a, T>;
    fn into_iter(self) -> Self::IntoIter {
        self.0.iter_mut()
    }
}

pub struct Rc<T>(std::rc::Rc<T>);

impl<T> Rc<T> {
    pub fn new(_: Global, value: T) -> Result<Rc<T>, AllocFailed<T>> {
        Ok(Rc(std::rc::Rc::new(value)))
    }
    #[allow(clippy::should_implement_trait)]
    pub fn as_ref(&self) -> &T {
        &self.0
    }
    #[allow(clippy::should_implement_trait)]
    pub fn clone(&self) -> Grown<Rc<T>> {
        Ok(Rc(self.0.clone()))
    }
}

pub struct VecDeque<T>(std::collections::VecDeque<T>);

impl<T> VecDeque<T> {
    pub fn new(_: Global) -> VecDeque<T> {
        VecDeque(std::collections::VecDeque::new())
    }
    pub fn push_back(&mut self, value: T) -> Result<(), AllocFailed<T>> {
        self.0.push_back(value);
        Ok(())
    }
    pub fn pop_front(&mut self) -> Option<T> {
        self.0.pop_front()
    }
}

#[derive(Default)]
pub struct Fold(u64);

impl Hasher for Fold {
    fn write(&mut self, bytes: &[u8]) {
        bytes.iter().for_each(|&byte| self.write_u32(byte.into()));
    }
    fn write_u32(&mut self, word: u32) {
        let product = (self.0 ^ u64::from(word)) as u128 * 0x9e37_79b9_7f4a_7c15_f39c;
        self.0 = (product >> 64) as u64 ^ product as u64;
    }
    fn finish(&self) -> u64 {
        self.0
    }
}

type Map<K, V> = std::collections::HashMap<K, V, BuildHasherDefault<Fold>>;

pub struct HashMap<K, V>(Map<K, V>);

impl<K: Eq + Hash, V> HashMap<K, V> {
    pub fn new(_: Global) -> Self {
        HashMap(Map::default())
    }
    pub fn get(&self, key: &K) -> Option<&V> {
        self.0.get(key)
    }
    pub fn insert(&mut self, key: K, value: V) -> Grown<Option<V>> {
        Ok(self.0.insert(key, value))
    }
}

/// Byte strings, each with a number. Only the functions that the label table calls are here.
pub struct IndexMap<K, V> {
    numbers: Map<std::vec::Vec<u8>, usize>,
    keys: std::vec::Vec<K>,
    values: std::marker::PhantomData<V>,
}

impl IndexMap<Vec<u8>, ()> {
    pub fn new(_: Global) -> Self {
        IndexMap { numbers: Map::default(), keys: std::vec::Vec::new(), values: std::marker::PhantomData }
    }
    pub fn len(&self) -> usize {
        self.keys.len()
    }
    pub fn get_index_of(&self, key: &[u8]) -> Option<usize> {
        self.numbers.get(key).copied()
    }
    pub fn insert(&mut self, key: Vec<u8>, _: ()) -> Grown<Option<()>> {
        if self.get_index_of(&key).is_some() {
            return Ok(Some(()));
        }
        self.numbers.insert(key.0.clone(), self.keys.len());
        self.keys.push(key);
        Ok(None)
    }
    pub fn keys(&self) -> std::slice::Iter<'_, Vec<u8>> {
        self.keys.iter()
    }
}

pub fn hash_of<T: Hash>(value: &T) -> u64 {
    BuildHasherDefault::<Fold>::default().hash_one(value)
}
