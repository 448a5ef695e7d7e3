//! Lists that are never changed once made.
//!
//! A list is a window (`start`, `len`) on a tree of given height: leaves hold up to `WIDTH` elements, inner
//! nodes up to `WIDTH` pointers. To change an element is to copy the nodes above it, so every older
//! copy of the list stays as it was. Equal parts of a repeated element share their nodes.

use crate::arena;
use crate::hidden::GcCompat;
use crate::int::Int;
use std::cmp::Ordering;
use std::fmt;
use std::hash::{Hash, Hasher};
use std::marker::PhantomData;
use std::ops::{Residual, Try};

const SHIFT: u32 = 4;
const WIDTH: usize = 1 << SHIFT;

type Tree = *const u8;

pub struct List<T> {
    root: Tree,
    start: u32,
    len: u32,
    height: u8,
    elements: PhantomData<T>,
}

/// How many elements fit below a node of this height.
#[inline]
fn span(height: u8) -> usize {
    WIDTH << (SHIFT * height as u32)
}

/// Which child of a node of this height (or element of a leaf) has the place.
#[inline]
fn slot(place: usize, height: u8) -> usize {
    (place >> (SHIFT * height as u32)) & (WIDTH - 1)
}

/// A new inner node with the children of `old` that lie below `total`.
///
/// # Safety
/// `old` is an inner node with at least `count` children.
unsafe fn copy_inner(old: Tree, count: usize) -> *mut Tree {
    let new = arena::room::<Tree>(WIDTH);
    new.copy_from_nonoverlapping(old as *const Tree, count);
    new
}

/// A list's length fits in 32 bits: the longest that a run asks for is 2^32 - 1.
fn checked_len(len: usize) -> u32 {
    u32::try_from(len).expect("a list's length")
}

impl<T: Copy> List<T> {
    pub fn new() -> Self {
        List { root: std::ptr::null(), start: 0, len: 0, height: 0, elements: PhantomData }
    }

    fn whole(root: Tree, height: u8, len: usize) -> Self {
        List { root, start: 0, len: checked_len(len), height, elements: PhantomData }
    }

    /// `list![element; count]`.
    pub fn repeat(element: T, count: impl Into<Int>) -> Self {
        let count = count.into().index();
        if count == 0 {
            return List::new();
        }
        let mut root = Self::leaf(count.min(WIDTH), |_| element);
        let mut height = 0;
        while span(height) < count {
            let below = span(height);
            let children = count.div_ceil(below).min(WIDTH);
            let node = arena::room::<Tree>(WIDTH);
            for i in 0..children {
                // SAFETY: i < WIDTH.
                unsafe { node.add(i).write(root) };
            }
            root = node as Tree;
            height += 1;
        }
        List::whole(root, height, count)
    }

    fn leaf(count: usize, element: impl FnMut(usize) -> T) -> Tree {
        let leaf = arena::room::<T>(count);
        let mut element = element;
        for i in 0..count {
            let value = element(i);
            // SAFETY: `leaf` has room for `count` elements.
            unsafe { leaf.add(i).write(value) };
        }
        leaf as Tree
    }

    /// The list of the iterator's elements, of which there are `count`.
    fn build(mut elements: impl Iterator<Item = T>, count: usize) -> Self {
        let mut next = || elements.next().expect("as many elements as promised");
        if count == 0 {
            return List::new();
        }
        if count <= WIDTH {
            return List::whole(Self::leaf(count, |_| next()), 0, count);
        }
        let mut left = count;
        let mut level = Vec::with_capacity(count.div_ceil(WIDTH));
        while left > 0 {
            let here = left.min(WIDTH);
            level.push(Self::leaf(here, |_| next()));
            left -= here;
        }
        let mut height = 0;
        while level.len() > 1 {
            level = level.chunks(WIDTH).map(parent_of).collect();
            height += 1;
        }
        List::whole(level[0], height, count)
    }

    pub fn from_slice(elements: &[T]) -> Self {
        Self::build(elements.iter().copied(), elements.len())
    }

    #[inline]
    fn count(&self) -> usize {
        self.len as usize
    }

    pub fn len(&self) -> Int {
        Int::from(self.len)
    }

    pub fn is_empty(&self) -> bool {
        self.len == 0
    }

    /// The leaf that holds a place of the tree.
    #[inline]
    fn leaf_of(&self, place: usize) -> *const T {
        let mut node = self.root;
        for height in (1..=self.height).rev() {
            // SAFETY: the place lies in the tree, so its node is there at every height.
            node = unsafe { *(node as *const Tree).add(slot(place, height)) };
        }
        node as *const T
    }

    #[inline]
    fn at(&self, index: usize) -> T {
        assert!(index < self.count(), "a place outside a list");
        let place = self.start as usize + index;
        // SAFETY: the leaf holds the place.
        unsafe { *self.leaf_of(place).add(slot(place, 0)) }
    }

    pub fn index_at(&self, index: impl Into<Int>) -> T {
        self.at(index.into().index())
    }

    pub fn get(&self, index: impl Into<Int>) -> Option<T> {
        let index = index.into();
        (index >= Int::ZERO && index < self.len()).then(|| self.at(index.index()))
    }

    pub fn set(&mut self, index: impl Into<Int>, element: T) {
        let index = index.into().index();
        assert!(index < self.count(), "a place outside a list");
        let place = self.start as usize + index;
        let total = self.start as usize + self.count();
        // SAFETY: the place lies in the tree, which has `total` elements.
        self.root = unsafe { with_element(self.root, self.height, place, total, element) };
    }

    /// Apply `f` to a copy of the element and put the copy back, whatever `f` answers.
    pub fn mutate_at<O>(&mut self, index: impl Into<Int>, f: impl FnOnce(&mut T) -> O) -> O {
        let index = index.into();
        let mut element = self.index_at(index);
        let answer = f(&mut element);
        self.set(index, element);
        answer
    }

    pub fn push(&mut self, element: T) {
        if self.len == 0 {
            *self = List::whole(Self::leaf(1, |_| element), 0, 1);
            return;
        }
        let place = self.start as usize + self.count();
        if place == span(self.height) {
            self.root = parent_of(&[self.root]);
            self.height += 1;
        }
        // SAFETY: the tree has `place` elements, and room for one more below its root.
        self.root = unsafe { with_element(self.root, self.height, place, place, element) };
        self.len = checked_len(self.count() + 1);
    }

    pub fn append(&mut self, other: List<T>) {
        if other.len <= self.len {
            other.iter().for_each(|element| self.push(element));
        } else if self.len == 0 {
            *self = other;
        } else {
            let count = self.count() + other.count();
            *self = Self::build(self.iter().chain(other.iter()), count);
        }
    }

    pub fn write_subslice_at_index(&mut self, start: impl Into<Int>, other: List<T>) {
        let start = start.into().index();
        let end = start + other.count();
        assert!(end <= self.count(), "a part outside a list");
        if other.count() * 4 < self.count() {
            for (i, element) in other.iter().enumerate() {
                self.set(start + i, element);
            }
        } else {
            let front = self.window(0, start);
            let back = self.window(end, self.count() - end);
            *self = Self::build(front.iter().chain(other.iter()).chain(back.iter()), self.count());
        }
    }

    pub fn subslice_with_length(&self, start: impl Into<Int>, len: impl Into<Int>) -> List<T> {
        let (start, len) = (start.into().index(), len.into().index());
        assert!(start + len <= self.count(), "a part outside a list");
        self.window(start, len)
    }

    fn window(&self, start: usize, len: usize) -> List<T> {
        if len == 0 {
            return List::new();
        }
        List { start: self.start + start as u32, len: len as u32, ..*self }
    }

    pub fn split_first(&self) -> Option<(T, List<T>)> {
        (self.len > 0).then(|| (self.at(0), self.window(1, self.count() - 1)))
    }

    pub fn iter(&self) -> Iter<T> {
        Iter { list: *self, index: 0, leaf: std::ptr::null() }
    }

    pub fn any(&self, test: impl FnMut(T) -> bool) -> bool {
        self.iter().any(test)
    }

    pub fn all(&self, test: impl FnMut(T) -> bool) -> bool {
        self.iter().all(test)
    }

    pub fn map<O: Copy>(&self, f: impl FnMut(T) -> O) -> List<O> {
        List::build(self.iter().map(f), self.count())
    }

    /// `map` that stops at the first failure.
    pub fn try_map<R: Try>(
        &self,
        mut f: impl FnMut(T) -> R,
    ) -> <R::Residual as Residual<List<R::Output>>>::TryType
    where
        R::Output: Copy,
        R::Residual: Residual<List<R::Output>>,
    {
        let mut done = Vec::with_capacity(self.count());
        for element in self.iter() {
            done.push(f(element)?);
        }
        Try::from_output(List::from_slice(&done))
    }
}

fn parent_of(children: &[Tree]) -> Tree {
    let node = arena::room::<Tree>(WIDTH);
    // SAFETY: at most WIDTH children.
    unsafe { node.copy_from_nonoverlapping(children.as_ptr(), children.len()) };
    node as Tree
}

/// A copy of the tree with another element at `place`, which may be the next free one.
///
/// # Safety
/// The tree has `total` elements, counted from the place of its first one, and `place <= total`.
unsafe fn with_element<T: Copy>(node: Tree, height: u8, place: usize, total: usize, element: T) -> Tree {
    if height == 0 {
        let here = total.min(WIDTH);
        let leaf = arena::room::<T>(here.max(place + 1));
        leaf.copy_from_nonoverlapping(node as *const T, here);
        leaf.add(place).write(element);
        return leaf as Tree;
    }
    let below = span(height - 1);
    let child = place / below;
    let new = copy_inner(node, total.div_ceil(below).min(WIDTH));
    let base = child * below;
    let sub = if base >= total {
        lone_element(height - 1, element)
    } else {
        with_element(*new.add(child), height - 1, place - base, (total - base).min(below), element)
    };
    new.add(child).write(sub);
    new as Tree
}

/// A tree of the given height with one element.
fn lone_element<T: Copy>(height: u8, element: T) -> Tree {
    let mut node = List::leaf(1, |_| element);
    for _ in 0..height {
        node = parent_of(&[node]);
    }
    node
}

pub struct Iter<T> {
    list: List<T>,
    index: usize,
    leaf: *const T,
}

impl<T: Copy> Iterator for Iter<T> {
    type Item = T;
    #[inline]
    fn next(&mut self) -> Option<T> {
        if self.index >= self.list.count() {
            return None;
        }
        let place = self.list.start as usize + self.index;
        let slot = slot(place, 0);
        if self.leaf.is_null() || slot == 0 {
            self.leaf = self.list.leaf_of(place);
        }
        self.index += 1;
        // SAFETY: the leaf holds the place.
        Some(unsafe { *self.leaf.add(slot) })
    }
}

impl<T: Copy> IntoIterator for List<T> {
    type Item = T;
    type IntoIter = Iter<T>;
    fn into_iter(self) -> Iter<T> {
        self.iter()
    }
}

impl<T> Copy for List<T> {}
impl<T> Clone for List<T> {
    fn clone(&self) -> Self {
        *self
    }
}
impl<T: GcCompat> GcCompat for List<T> {
    fn relocate(self) -> Self {
        List::build(self.iter().map(T::relocate), self.count())
    }
}
impl<T: Copy + fmt::Debug> fmt::Debug for List<T> {
    fn fmt(&self, f: &mut fmt::Formatter) -> fmt::Result {
        f.debug_list().entries(self.iter()).finish()
    }
}
impl<T: Copy + PartialEq> PartialEq for List<T> {
    fn eq(&self, other: &Self) -> bool {
        self.len == other.len && self.iter().zip(other.iter()).all(|(a, b)| a == b)
    }
}
impl<T: Copy + Eq> Eq for List<T> {}
impl<T: Copy + Hash> Hash for List<T> {
    fn hash<H: Hasher>(&self, state: &mut H) {
        self.len.hash(state);
        self.iter().for_each(|element| element.hash(state));
    }
}
impl<T: Copy + PartialOrd> PartialOrd for List<T> {
    fn partial_cmp(&self, other: &Self) -> Option<Ordering> {
        self.iter().partial_cmp(other.iter())
    }
}
impl<T: Copy + Ord> Ord for List<T> {
    fn cmp(&self, other: &Self) -> Ordering {
        self.iter().cmp(other.iter())
    }
}

#[macro_export]
macro_rules! list {
    () => { $crate::prelude::List::new() };
    ($element:expr; $count:expr) => { $crate::prelude::List::repeat($element, $count) };
    ($($element:expr),+ $(,)?) => { $crate::prelude::List::from_slice(&[$($element),+]) };
}

#[cfg(test)]
mod tests {
    use super::*;

    /// Every operation on lists and on plain vectors, side by side; older copies have to stay as they are.
    #[test]
    fn lists_behave_as_values() {
        let mut seed = 1u64;
        let mut below = |bound: usize| {
            seed = seed.wrapping_mul(6364136223846793005).wrapping_add(1442695040888963407);
            (seed >> 33) as usize % bound.max(1)
        };
        let mut held: Vec<(List<u32>, Vec<u32>)> = vec![(List::new(), Vec::new())];
        for round in 0..20_000u32 {
            let (mut list, mut plain) = held[below(held.len())].clone();
            let len = plain.len();
            match below(9) {
                0 | 1 => {
                    list.push(round);
                    plain.push(round);
                }
                2 if len > 0 => {
                    let at = below(len);
                    list.set(at, round);
                    plain[at] = round;
                }
                3 if len > 0 => {
                    let at = below(len);
                    list.mutate_at(at, |x| *x += 1);
                    plain[at] += 1;
                }
                4 => {
                    let (other, other_plain) = held[below(held.len())].clone();
                    if len + other_plain.len() < 3000 {
                        list.append(other);
                        plain.extend(other_plain);
                    }
                }
                5 => {
                    let start = below(len + 1);
                    let part = below(len - start + 1);
                    list = list.subslice_with_length(start, part);
                    plain = plain[start..start + part].to_vec();
                }
                6 => {
                    let count = below(600);
                    list = List::repeat(round, count);
                    plain = vec![round; count];
                }
                7 => {
                    let (other, other_plain) = held[below(held.len())].clone();
                    if other_plain.len() <= len {
                        let start = below(len - other_plain.len() + 1);
                        list.write_subslice_at_index(start, other);
                        plain[start..start + other_plain.len()].copy_from_slice(&other_plain);
                    }
                }
                _ => {
                    list = list.map(|x| x ^ 1);
                    plain.iter_mut().for_each(|x| *x ^= 1);
                    if let Some((_, tail)) = list.split_first() {
                        list = tail;
                        plain.remove(0);
                    }
                }
            }
            assert!(list.iter().eq(plain.iter().copied()));
            let places = [0, below(plain.len()), plain.len().saturating_sub(1)];
            assert!(places.iter().all(|&i| list.get(i) == plain.get(i).copied()));
            if held.len() < 40 {
                held.push((list, plain));
            } else {
                let at = below(40);
                held[at] = (list, plain);
            }
            if round % 5000 == 0 {
                let mut lists: Vec<List<u32>> = held.iter().map(|pair| pair.0).collect();
                let mut all = List::from_slice(&lists);
                arena::collect(&mut all);
                lists = all.iter().collect();
                held.iter_mut().zip(lists).for_each(|(pair, list)| pair.0 = list);
            }
            assert!(held.iter().all(|(list, plain)| list.len() == Int::from(plain.len())));
        }
        assert!(held.iter().all(|(list, plain)| list.iter().eq(plain.iter().copied())));
    }
}
