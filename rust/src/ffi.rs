//! The archive's functions and the memory that they read and write, declared again from include/pamzolit.h. All of
//! this crate's `unsafe` is here; what the header asks of pointers is kept by handing over references and slices.
#![allow(unsafe_code)]

use std::mem::{align_of, offset_of, size_of};

#[cfg(not(target_pointer_width = "64"))]
compile_error!("the archive is compiled for pointers of 64 bits");

#[repr(C)]
#[derive(Clone, PartialEq, Eq)]
pub struct Network {
    pub nodes: usize,
    pub links: usize,
    pub a: [u8; 256],
    pub b: [u8; 256],
    pub capacity: [u32; 256],
}

#[repr(C)]
#[derive(Clone, PartialEq, Eq)]
pub struct Tree {
    pub parent: [u8; 64],
    pub weight: [u32; 64],
}

#[repr(C)]
#[derive(Clone, PartialEq, Eq)]
pub struct Steps {
    pub pivot: [u8; 64],
    pub side: [u64; 64],
    pub value: [u32; 64],
}

#[repr(C)]
#[derive(Clone, PartialEq, Eq)]
pub struct Stack {
    pub depth: usize,
    pub link: [u16; 64],
    pub capacity: [u32; 64],
}

#[repr(C)]
#[derive(Clone, PartialEq, Eq)]
pub struct Edge {
    pub node: u32,
    pub weight: u32,
}

#[repr(C)]
#[derive(Clone, PartialEq, Eq)]
pub struct Plan {
    pub network: Network,
    pub tree: Tree,
    pub steps: Steps,
    pub stack: Stack,
    pub lightest: Edge,
}

#[repr(C)]
#[derive(Default)]
pub struct PairReply {
    pub number: u32,
    pub weight: u32,
    pub side: u64,
    pub node: usize,
    pub size: usize,
}

#[repr(C)]
#[derive(Default)]
pub struct HeadroomReply {
    pub number: u32,
    pub value: i32,
    pub text: [u8; 12],
}

#[repr(C)]
#[derive(Clone, Default, PartialEq, Eq, Hash)]
pub struct Window {
    pub last: i32,
    pub lowest: i32,
    pub count: u32,
}

#[repr(C)]
#[derive(Default)]
pub struct WindowReply {
    pub number: u32,
    pub text: [u8; 4],
}

// the header's assertions
const _: () = assert!(size_of::<Plan>() == 3104 && align_of::<Plan>() == 8);
const _: () = assert!(offset_of!(Plan, network.a) == 16 && offset_of!(Plan, network.b) == 272);
const _: () = assert!(offset_of!(Plan, network.links) == 8 && offset_of!(Plan, network.capacity) == 528);
const _: () = assert!(offset_of!(Plan, tree.parent) == 1552 && offset_of!(Plan, tree.weight) == 1616);
const _: () = assert!(offset_of!(Plan, steps.pivot) == 1872 && offset_of!(Plan, steps.side) == 1936);
const _: () = assert!(offset_of!(Plan, steps.value) == 2448 && offset_of!(Plan, stack.depth) == 2704);
const _: () = assert!(offset_of!(Plan, stack.link) == 2712 && offset_of!(Plan, stack.capacity) == 2840);
const _: () = assert!(offset_of!(Plan, lightest.node) == 3096 && offset_of!(Plan, lightest.weight) == 3100);
const _: () = assert!(size_of::<PairReply>() == 32 && offset_of!(PairReply, node) == 16);
const _: () = assert!(size_of::<HeadroomReply>() == 20 && offset_of!(HeadroomReply, text) == 8);
const _: () = assert!(size_of::<Window>() == 12 && align_of::<Window>() == 4);
const _: () = assert!(offset_of!(Window, lowest) == 4 && offset_of!(Window, count) == 8);
const _: () = assert!(size_of::<WindowReply>() == 8 && offset_of!(WindowReply, text) == 4);

unsafe extern "C" {
    fn pamzolit_open(file: *const u8, file_length: usize, plan: &mut Plan, place: &mut usize) -> u32;
    fn pamzolit_change(plan: &mut Plan, link: usize, capacity: u32, count: &mut u32) -> u32;
    fn pamzolit_undo(plan: &mut Plan, count: &mut u32) -> u32;
    fn pamzolit_pair(plan: &Plan, s: usize, t: usize, reply: &mut PairReply) -> u32;
    fn pamzolit_preview(
        plan: &Plan,
        link: usize,
        capacity: u32,
        s: usize,
        t: usize,
        reply: &mut PairReply,
        count: &mut u32,
    ) -> u32;
    fn pamzolit_headroom(plan: &Plan, s: usize, t: usize, demand: u32, reply: &mut HeadroomReply) -> u32;
    fn pamzolit_reset(window: &mut Window);
    fn pamzolit_reading(
        window: &mut Window,
        plan: &Plan,
        s: usize,
        t: usize,
        demand: u32,
        reply: &mut WindowReply,
    ) -> u32;
    fn pamzolit_flow(plan: &Plan, s: usize, t: usize, out: *mut i32, out_length: usize) -> u32;
    fn pamzolit_write(plan: &Plan, out: *mut u8, out_length: usize, used: &mut usize) -> u32;
    fn pamzolit_listing(file: *const u8, file_length: usize, out: *mut u8, out_length: usize) -> usize;
}

// memory for an opening to fill
const ZEROS: Plan = Plan {
    network: Network { nodes: 0, links: 0, a: [0; 256], b: [0; 256], capacity: [0; 256] },
    tree: Tree { parent: [0; 64], weight: [0; 64] },
    steps: Steps { pivot: [0; 64], side: [0; 64], value: [0; 64] },
    stack: Stack { depth: 0, link: [0; 64], capacity: [0; 64] },
    lightest: Edge { node: 0, weight: 0 },
};

/// The plan of a file, or number and place of its refusal.
pub fn open(file: &[u8]) -> Result<Plan, (u32, usize)> {
    let mut plan = ZEROS;
    let mut place = 0;
    // SAFETY: the slice goes with its own length, plan and place are borrowed for the call alone.
    let number = unsafe { pamzolit_open(file.as_ptr(), file.len(), &mut plan, &mut place) };
    if number == 0 { Ok(plan) } else { Err((number, place)) }
}

// what a call gives that was accepted, or the number of its refusal
fn accepted<T>(number: u32, value: T) -> Result<T, u32> {
    if number == 0 { Ok(value) } else { Err(number) }
}

pub fn change(plan: &mut Plan, link: usize, capacity: u32) -> Result<u32, u32> {
    let mut count = 0;
    // SAFETY: plan and count are borrowed for the call alone.
    let number = unsafe { pamzolit_change(plan, link, capacity, &mut count) };
    accepted(number, count)
}

pub fn undo(plan: &mut Plan) -> Result<u32, u32> {
    let mut count = 0;
    // SAFETY: plan and count are borrowed for the call alone.
    let number = unsafe { pamzolit_undo(plan, &mut count) };
    accepted(number, count)
}

pub fn pair(plan: &Plan, s: usize, t: usize) -> Result<PairReply, u32> {
    let mut reply = PairReply::default();
    // SAFETY: the plan is only read, the reply is borrowed for the call alone.
    let number = unsafe { pamzolit_pair(plan, s, t, &mut reply) };
    accepted(number, reply)
}

pub fn preview(plan: &Plan, link: usize, capacity: u32, s: usize, t: usize) -> Result<(PairReply, u32), u32> {
    let mut reply = PairReply::default();
    let mut count = 0;
    // SAFETY: the plan is only read, reply and count are borrowed for the call alone.
    let number = unsafe { pamzolit_preview(plan, link, capacity, s, t, &mut reply, &mut count) };
    accepted(number, (reply, count))
}

pub fn headroom(plan: &Plan, s: usize, t: usize, demand: u32) -> Result<HeadroomReply, u32> {
    let mut reply = HeadroomReply::default();
    // SAFETY: the plan is only read, the reply is borrowed for the call alone.
    let number = unsafe { pamzolit_headroom(plan, s, t, demand, &mut reply) };
    accepted(number, reply)
}

pub fn reset(window: &mut Window) {
    // SAFETY: the record is borrowed for the call alone.
    unsafe { pamzolit_reset(window) }
}

pub fn reading(window: &mut Window, plan: &Plan, s: usize, t: usize, demand: u32) -> Result<WindowReply, u32> {
    let mut reply = WindowReply::default();
    // SAFETY: the plan is only read, record and reply are borrowed for the call alone.
    let number = unsafe { pamzolit_reading(window, plan, s, t, demand, &mut reply) };
    accepted(number, reply)
}

pub fn flow(plan: &Plan, s: usize, t: usize, out: &mut [i32]) -> Result<(), u32> {
    // SAFETY: the plan is only read, the slice goes with its own length.
    let number = unsafe { pamzolit_flow(plan, s, t, out.as_mut_ptr(), out.len()) };
    accepted(number, ())
}

pub fn write(plan: &Plan, out: &mut [u8]) -> Result<usize, u32> {
    let mut used = 0;
    // SAFETY: the plan is only read, the slice goes with its own length, used is borrowed for the call alone.
    let number = unsafe { pamzolit_write(plan, out.as_mut_ptr(), out.len(), &mut used) };
    accepted(number, used)
}

pub fn listing(file: &[u8], out: &mut [u8]) -> usize {
    // SAFETY: both slices go with their own lengths.
    unsafe { pamzolit_listing(file.as_ptr(), file.len(), out.as_mut_ptr(), out.len()) }
}
