//! The calls over a whole map that the crate has not, ours and the plain loops: check, image written, image read.
use crate::calls::words;
use crate::plain;
use crate::runs::Turns;
use crate::sides::{apart, value, Ours, NONE};
use crate::sys::{self, Answer};
use std::hint::black_box;

#[derive(Clone, Copy)]
pub enum Call {
    Check,
    Write,
    Read,
}

pub trait Whole {
    type Answer;
    fn said(answer: Self::Answer) -> u64;
    fn counted_check(map: &[u16]) -> Self::Answer;
    fn counted_write(map: &[u16], target: &mut [u8]) -> Self::Answer;
    fn counted_read(bytes: &[u8], target: &mut [u16]) -> Self::Answer;
}

// Safety of each call: the pointers and the counts are those of slices, which are lent for the whole call.
impl Whole for Ours {
    type Answer = Answer;
    fn said(answer: Answer) -> u64 {
        value(answer)
    }
    #[inline(never)]
    fn counted_check(map: &[u16]) -> Answer {
        apart!();
        unsafe { sys::asogeren_check(map.as_ptr(), map.len()) }
    }
    #[inline(never)]
    fn counted_write(map: &[u16], target: &mut [u8]) -> Answer {
        apart!();
        unsafe { sys::asogeren_image_write(map.as_ptr(), map.len(), target.as_mut_ptr(), target.len()) }
    }
    #[inline(never)]
    fn counted_read(bytes: &[u8], target: &mut [u16]) -> Answer {
        apart!();
        unsafe { sys::asogeren_image_read(bytes.as_ptr(), bytes.len(), target.as_mut_ptr(), target.len()) }
    }
}

pub struct Plain;

impl Whole for Plain {
    type Answer = Option<usize>;
    fn said(answer: Option<usize>) -> u64 {
        answer.map_or(NONE, |x| x as u64)
    }
    #[inline(never)]
    fn counted_check(map: &[u16]) -> Option<usize> {
        apart!();
        Some(plain::is_true(map) as usize)
    }
    #[inline(never)]
    fn counted_write(map: &[u16], target: &mut [u8]) -> Option<usize> {
        apart!();
        plain::write(map, target)
    }
    #[inline(never)]
    fn counted_read(bytes: &[u8], target: &mut [u16]) -> Option<usize> {
        apart!();
        plain::read(bytes, target)
    }
}

/// A line over a whole map on one side: the call, a map, its image, and a target of each kind.
pub struct Run<W> {
    side: std::marker::PhantomData<W>,
    call: Call,
    map: Vec<u16>,
    image: Vec<u8>,
    to_words: Vec<u16>,
    to_bytes: Vec<u8>,
}

impl<W: Whole> Run<W> {
    pub fn new(call: Call, n: usize, map: Vec<u16>) -> Run<W> {
        let mut image = vec![0; plain::length(n)];
        plain::write(&map, &mut image).expect("a true map");
        Run {
            side: std::marker::PhantomData,
            call,
            map,
            image,
            to_words: vec![0; words(n)],
            to_bytes: vec![0; plain::length(n)],
        }
    }

    fn call(&mut self) -> W::Answer {
        match self.call {
            Call::Check => W::counted_check(&self.map),
            Call::Write => W::counted_write(&self.map, &mut self.to_bytes),
            Call::Read => W::counted_read(&self.image, &mut self.to_words),
        }
    }
}

impl<W: Whole> Turns for Run<W> {
    fn steps(&self) -> usize {
        1
    }
    fn turn(&mut self, times: usize) {
        for _ in 0..times {
            black_box(self.call());
        }
    }
    fn undo(&mut self) {}
    fn step(&mut self, _: usize) -> [u64; 2] {
        [W::said(self.call()), 0]
    }
    fn left(&mut self) -> Vec<u16> {
        let bytes = self.to_bytes.iter().map(|b| *b as u16);
        self.map.iter().chain(&self.to_words).copied().chain(bytes).collect()
    }
}
