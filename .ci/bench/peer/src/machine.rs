//! What an event does. Over a queue a request goes into flight, is executed there, and is reaped by a turn; without one its call is made
//! by the poll of its operation. Operations are in slots of one vector, with a list of those that are free.

use crate::flying::Flying;
use crate::handle::{Buffer, Handle, Outcome};
use crate::line::{Event, Kind, Request, Told, What};
use crate::reply::Replies;
use std::mem;

/// Why an event wasn't run: it is refused, or memory ran out.
pub enum No { Refused(&'static [u8]), Memory }

const NO_CANCELLER: No = No::Refused(b"NoCanceller");

/// The slot of an operation that its user has no more.
const NONE: u32 = u32::MAX;
/// A key is a slot, or with this bit the close of a handle.
const CLOSE: u32 = 1 << 31;
const CANCELED: u16 = 125;
const LAST_ERROR: u16 = 4095;

#[derive(PartialEq, Eq)]
enum Stage { Queued, Flying, Done, Reaped }

// An operation: its number, its request, who waits for it (`has_task`), and whether it is listed at its handle (`waits`).
struct Slot {
    number: u32, handle: u32, what: What, buffer: Option<Buffer>, outcome: Outcome,
    stage: Stage, canceled: bool, dropped: bool, has_task: bool, task: u64, waits: bool,
}

enum Entry { Start(u32), Cancel(u32) }

// A group: whether it was canceled, and the operations that were submitted under it.
#[derive(Default)]
struct Group { marked: bool, ops: Vec<u32> }

#[derive(Default)]
pub struct Machine {
    handles: Vec<Handle>, slots: Vec<Slot>, free: Vec<u32>,
    // The slot of each operation, the present group of each canceller, the group of each cancel handle.
    ops: Vec<u32>, groups: Vec<Group>, cancellers: Vec<u32>, cancel_handles: Vec<u32>,
    // The capacity is 0 where there is no queue. What a turn reaps and names is kept for its memory.
    cap: usize, queue: Vec<Entry>, flying: Flying, done: Vec<u32>, reaped: Vec<u32>, tasks: Vec<u64>,
    // Without a queue: the slots that wait on each handle, with the numbers of their operations, and the tasks that were woken since the
    // last poll. No reply shows them, but to know them is what a driver without a queue is for.
    waiting: Vec<Vec<(u32, u32)>>, woken: Vec<u64>,
}

// The element of a number, where there is one.
fn at<T: Copy>(list: &[T], number: u64) -> Option<T> {
    list.get(usize::try_from(number).ok()?).copied()
}

fn may_fail(canceled: bool, error: u16) -> bool {
    error > 0 && error <= LAST_ERROR && (canceled || error != CANCELED)
}

impl Machine {
    pub fn new(cap: usize) -> Machine {
        Machine { cap, ..Machine::default() }
    }

    /// Runs an event, and adds its reply.
    #[inline]
    pub fn apply(&mut self, event: Event, replies: &mut Replies) -> Result<(), No> {
        match event {
            Event::Submit(under, request) => self.submit(under, request, replies)?,
            Event::Poll(number, task) => self.poll(self.slot(number)?, task, replies),
            Event::Turn => self.turn(replies),
            Event::Exec(place, told) => self.exec(place, told, replies)?,
            Event::Drop(number) => self.drop(self.slot(number)?, replies),
            Event::Cancel(number) => {
                self.cancel(self.slot(number)?);
                replies.text(b"asked");
            }
            Event::Canceller => {
                replies.named(b"canceller ", self.cancellers.len() as u64);
                self.cancellers.push(self.groups.len() as u32);
                self.groups.push(Group::default());
            }
            Event::NewHandle(canceller) => {
                let group = at(&self.cancellers, canceller).ok_or(NO_CANCELLER)?;
                replies.named(b"cancelhandle ", self.cancel_handles.len() as u64);
                self.cancel_handles.push(group);
            }
            Event::CancelAll(canceller) => {
                let group = at(&self.cancellers, canceller).ok_or(NO_CANCELLER)?;
                self.cancellers[canceller as usize] = self.groups.len() as u32;
                self.groups.push(Group::default());
                self.groups[group as usize].marked = true;
                let mut ops = mem::take(&mut self.groups[group as usize].ops);
                ops.retain(|number| self.ops[*number as usize] != NONE);
                replies.list(b"cancels ", ops.iter().map(|number| *number as u64));
                ops.iter().for_each(|number| self.cancel(self.ops[*number as usize]));
            }
            Event::Give(kind) => {
                self.handles.push(Handle::new(kind, true));
                replies.named(b"handle ", self.handles.len() as u64 - 1);
            }
            Event::Feed(number, from, digits) => self.feed(number, from, digits, replies)?,
            Event::Look(number) => replies.shown(self.handle(number)?.look()),
            Event::Close(number) => {
                let handle = self.handle(number)?;
                handle.is_users = false;
                if handle.is_unheld() {
                    self.push(Entry::Start(CLOSE | number as u32));
                }
                replies.text(b"released");
            }
        }
        Ok(())
    }

    // The slot of an operation that its user has.
    fn slot(&self, number: u64) -> Result<u32, No> {
        at(&self.ops, number).filter(|key| *key != NONE).ok_or(No::Refused(b"NoOp"))
    }

    // A handle that its user holds.
    fn handle(&mut self, number: u64) -> Result<&mut Handle, No> {
        let handle = usize::try_from(number).ok().and_then(|number| self.handles.get_mut(number));
        handle.filter(|handle| handle.is_users).ok_or(No::Refused(b"NoHandle"))
    }

    // Something arrives at a handle, and who waits on it is woken.
    fn feed(&mut self, number: u64, from: Option<u64>, digits: &[u8], replies: &mut Replies) -> Result<(), No> {
        if !self.handle(number)?.feed(from, digits) {
            return Err(No::Refused(b"BadHandleEvent"));
        }
        for (key, op) in self.waiting.get_mut(number as usize).into_iter().flat_map(|waiting| waiting.drain(..)) {
            let slot = &mut self.slots[key as usize];
            if slot.number == op && mem::take(&mut slot.waits) {
                self.woken.push(slot.task);
            }
        }
        replies.text(b"fed");
        Ok(())
    }

    // A request gets a slot, under a group or none; under a canceled one its buffer comes back.
    #[inline]
    fn submit(&mut self, under: Option<u64>, request: Request, replies: &mut Replies) -> Result<(), No> {
        let group = under.map(|handle| at(&self.cancel_handles, handle).ok_or(NO_CANCELLER)).transpose()?;
        self.handle(request.handle)?;
        let buffer = request.buffer.map(|text| Buffer::new(&text).ok_or(No::Memory)).transpose()?;
        let (number, handle) = (self.ops.len() as u32, request.handle as u32);
        if let Some(group) = group.map(|group| &mut self.groups[group as usize]) {
            if group.marked {
                replies.text(b"canceled");
                replies.buffer(&buffer);
                return Ok(());
            }
            group.ops.push(number);
        }
        self.handles[handle as usize].ops += 1;
        let (what, outcome, stage, canceled, dropped) = (request.what, Outcome::Count(0), Stage::Queued, false, false);
        let slot = Slot { number, handle, what, buffer, outcome, stage, canceled, dropped, has_task: false, task: 0, waits: false };
        let key = self.free.pop().unwrap_or(self.slots.len() as u32);
        match self.slots.get_mut(key as usize) {
            Some(free) => *free = slot,
            None => self.slots.push(slot),
        }
        self.ops.push(key);
        self.push(Entry::Start(key));
        replies.named(b"op ", number as u64);
        Ok(())
    }

    // An operation that ended is returned; else the task waits for it.
    fn poll(&mut self, key: u32, task: u64, replies: &mut Replies) {
        if self.cap == 0 {
            self.attempt(key);
        }
        let slot = &mut self.slots[key as usize];
        if slot.stage != Stage::Reaped {
            (slot.has_task, slot.task) = (true, task);
            return replies.text(b"pending");
        }
        match slot.outcome {
            Outcome::Count(count) => replies.named(b"ready ok ", count as u64),
            Outcome::From(count, address) => {
                replies.named(b"ready from ", count as u64);
                replies.named(b" ", address);
            }
            Outcome::Made(made) => {
                self.handles[made as usize].is_users = true;
                replies.named(b"ready made ", made as u64);
            }
            Outcome::Fail(error) => replies.named(b"ready err ", error as u64),
        }
        replies.buffer(&slot.buffer);
        self.leave(key);
    }

    // The call of an operation is made at once, or the operation waits on its handle.
    fn attempt(&mut self, key: u32) {
        self.woken.clear();
        let slot = &mut self.slots[key as usize];
        let handle = &self.handles[slot.handle as usize];
        if slot.canceled || !handle.blocks(slot.what) {
            let most = if slot.canceled { Err(CANCELED) } else { handle.most(slot.what, &slot.buffer) };
            slot.stage = Stage::Reaped;
            let _ = self.finish(key, most.map(|count| count as u32));
        } else if !mem::replace(&mut slot.waits, true) {
            if self.waiting.len() < self.handles.len() {
                self.waiting.resize_with(self.handles.len(), Vec::new);
            }
            self.waiting[slot.handle as usize].push((key, slot.number));
        }
    }

    // An operation ends as it is told, where that is allowed.
    fn finish(&mut self, key: u32, told: Told) -> Result<(), No> {
        let slot = &mut self.slots[key as usize];
        let outcome = match told {
            Ok(count) => self.handles[slot.handle as usize].call(slot.what, &mut slot.buffer, count),
            Err(error) => may_fail(slot.canceled, error).then_some(Outcome::Fail(error)),
        };
        slot.outcome = outcome.ok_or(No::Refused(b"BadOutcome"))?;
        if let Outcome::Made(made) = &mut slot.outcome {
            *made = self.handles.len() as u32;
            self.handles.push(Handle::new(Kind::Stream, false));
        }
        Ok(())
    }

    // An operation that ended is gone at once; else its cancel is queued, and its slot stays until it is reaped.
    fn drop(&mut self, key: u32, replies: &mut Replies) {
        replies.text(b"dropped");
        let slot = &mut self.slots[key as usize];
        if self.cap == 0 || slot.stage == Stage::Reaped {
            return self.leave(key);
        }
        slot.dropped = true;
        self.ops[slot.number as usize] = NONE;
        self.push(Entry::Cancel(key));
    }

    // The cancel of an operation is queued; without a queue its next poll ends it.
    fn cancel(&mut self, key: u32) {
        let slot = &mut self.slots[key as usize];
        if mem::take(&mut slot.waits) {
            self.woken.push(slot.task);
        }
        slot.canceled |= self.cap == 0;
        self.push(Entry::Cancel(key));
    }

    // An operation is gone, and its slot is free. The handles that nobody holds any more are closed: the one that it named, and the one
    // that it made, which comes later.
    fn leave(&mut self, key: u32) {
        let slot = &mut self.slots[key as usize];
        (slot.buffer, slot.waits) = (None, false);
        self.ops[slot.number as usize] = NONE;
        self.free.push(key);
        let made = if let Outcome::Made(made) = slot.outcome { Some(made) } else { None };
        for number in [Some(slot.handle), made].into_iter().flatten() {
            let handle = &mut self.handles[number as usize];
            handle.ops -= 1;
            if handle.is_unheld() {
                self.push(Entry::Start(CLOSE | number));
            }
        }
    }

    // An entry joins the queue, which is taken first where it is full.
    fn push(&mut self, entry: Entry) {
        if self.cap == 0 {
            return;
        }
        if self.queue.len() == self.cap {
            self.take();
        }
        self.queue.push(entry);
    }

    // The queue is taken. A slot that was freed behind its cancel and given anew is still queued when that cancel comes.
    fn take(&mut self) {
        for entry in self.queue.drain(..) {
            match entry {
                Entry::Start(key) => {
                    if key & CLOSE == 0 {
                        self.slots[key as usize].stage = Stage::Flying;
                    }
                    self.flying.push(key);
                }
                Entry::Cancel(key) => {
                    let slot = &mut self.slots[key as usize];
                    slot.canceled |= slot.stage == Stage::Flying;
                }
            }
        }
    }

    // The queue is taken; then all that is done is named and reaped.
    fn turn(&mut self, replies: &mut Replies) {
        self.take();
        mem::swap(&mut self.done, &mut self.reaped);
        let is_close = |key: &&u32| **key & CLOSE != 0;
        let ops = self.reaped.iter().filter(|key| !is_close(key));
        replies.list(b"turned ", ops.map(|key| self.slots[*key as usize].number as u64));
        replies.list(b" ", self.reaped.iter().filter(is_close).map(|key| (*key - CLOSE) as u64));
        for at in 0..self.reaped.len() {
            let key = self.reaped[at];
            let Some(slot) = self.slots.get_mut(key as usize) else { continue };
            slot.stage = Stage::Reaped;
            if slot.dropped {
                self.leave(key);
            } else if slot.has_task {
                self.tasks.push(slot.task);
            }
        }
        self.reaped.clear();
        replies.list(b" ", self.tasks.drain(..));
    }

    // The entry at a place in flight ends as it is told.
    fn exec(&mut self, place: u64, told: Told, replies: &mut Replies) -> Result<(), No> {
        let (key, place) = self.flying.find(place).ok_or(No::Refused(b"NotFlying"))?;
        if key & CLOSE == 0 {
            self.finish(key, told)?;
            let slot = &mut self.slots[key as usize];
            slot.stage = Stage::Done;
            replies.named(b"executed op ", slot.number as u64);
        } else if told.map_or_else(|error| may_fail(false, error), |count| count == 0) {
            replies.named(b"executed close ", (key - CLOSE) as u64);
        } else {
            return Err(No::Refused(b"BadOutcome"));
        }
        self.flying.remove(place);
        self.done.push(key);
        Ok(())
    }
}
