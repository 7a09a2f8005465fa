//! The library, each call on a stack of its own that was filled with one octet.
//! The lowest octet that is another one afterwards says how far the call went.

use std::cell::{Cell, RefCell};
use std::collections::BTreeMap;
use std::mem::size_of;

use ohakelm::raw;
use ohakelm_answers::{Bitmap, Edited, Entry, Label, Listed, Logo};
use ohakelm_answers::{Pack, Salvage, Stretch, Tone, Written};

use super::codecs::{Codec, Edit, LogoParts, Spot};
use super::compare::edit_name;

/// The octets of that stack: several times what any call takes.
const SIZE: usize = 1 << 17;

/// Both processors want a stack to begin at a multiple of 16.
#[repr(align(16))]
struct Stack([u8; SIZE]);

pub struct Measured {
    stack: RefCell<Box<Stack>>,
    /// It changes with each call, so that no value is taken for it every time.
    filling: Cell<u8>,
    most: RefCell<BTreeMap<&'static str, usize>>,
}

impl Measured {
    pub fn new() -> Measured {
        Measured {
            stack: RefCell::new(Box::new(Stack([0; SIZE]))),
            filling: Cell::new(0),
            most: RefCell::default(),
        }
    }

    /// How many octets each call went down at most. The place to return to
    /// counts where it stands on the stack. Words that the caller hands over
    /// there are the caller's.
    pub fn most(&self) -> BTreeMap<&'static str, usize> {
        self.most.borrow().clone()
    }

    pub fn version(&self) {
        // It answers in a register.
        let _: [usize; 1] = self.call("version", raw::ohakelm_version as *const (), &[]);
    }

    /// Makes a call with these words and notes how far it went.
    pub fn call<T: Default>(&self, name: &'static str, call: *const (), words: &[&[usize]]) -> T {
        let mut answer = T::default();
        let words = processor::words(&mut answer as *mut T as usize, &words.concat());
        let (registers, handed) = words.split_at(processor::REGISTERS);
        let octets: Vec<u8> = handed.iter().flat_map(|word| word.to_ne_bytes()).collect();
        let top = SIZE - octets.len().next_multiple_of(2 * size_of::<usize>());

        let filling = self.filling.get().wrapping_add(91);
        self.filling.set(filling);
        let stack = &mut self.stack.borrow_mut().0;
        stack.fill(filling);
        stack[top..][..octets.len()].copy_from_slice(&octets);
        // SAFETY: the words are those of the call, by live slices, and it has
        // room on this stack.
        unsafe { processor::call_on(stack[top..].as_mut_ptr(), call, registers) };

        let lowest = stack.iter().position(|&octet| octet != filling);
        let octets = top - lowest.unwrap_or(top).min(top);
        let mut most = self.most.borrow_mut();
        let before = most.entry(name).or_default();
        *before = octets.max(*before);
        answer
    }
}

/// A slice as the two words of a call.
fn input<T>(cells: &[T]) -> [usize; 2] {
    [cells.as_ptr() as usize, cells.len()]
}

fn lent<T>(cells: &mut [T]) -> [usize; 2] {
    [cells.as_mut_ptr() as usize, cells.len()]
}

impl Codec for Measured {
    fn name(&self) -> &'static str {
        "proved, on a stack of its own"
    }

    fn read(&self, message: &[u8], table: &mut [u32], title: &mut [u8]) -> Tone {
        let words: [&[usize]; 3] = [&input(message), &lent(table), &lent(title)];
        self.call("read", raw::ohakelm_read as *const (), &words)
    }

    fn write(
        &self,
        song: u32,
        unicode: bool,
        title: &[u8],
        table: &[u32],
        out: &mut [u8],
    ) -> Written {
        let front = [song as usize, unicode as usize];
        let words: [&[usize]; 4] = [&front, &input(title), &input(table), &lent(out)];
        self.call("write", raw::ohakelm_write as *const (), &words)
    }

    fn label(&self, title: &[u8], unicode: bool, stand_in: &[u8]) -> Label {
        let words: [&[usize]; 3] = [&input(title), &[unicode as usize], &input(stand_in)];
        self.call("label", raw::ohakelm_label as *const (), &words)
    }

    fn list(&self, message: &[u8], list: &mut [u32]) -> Listed {
        let words: [&[usize]; 2] = [&input(message), &lent(list)];
        self.call("list", raw::ohakelm_list as *const (), &words)
    }

    fn rows(&self, message: &[u8], list: &mut [u32], rows: &mut [Entry]) -> Listed {
        let words: [&[usize]; 3] = [&input(message), &lent(list), &lent(rows)];
        self.call("rows", raw::ohakelm_rows as *const (), &words)
    }

    fn edit(&self, buffer: &mut [u8], spot: Spot, edit: Edit, list: &mut [u32]) -> Edited {
        let spot = [spot.used, spot.pattern, spot.instruction];
        let (call, entry) = match edit {
            Edit::Replace(entry) => (raw::ohakelm_replace as *const (), Some(entry as usize)),
            Edit::Insert(entry) => (raw::ohakelm_insert as *const (), Some(entry as usize)),
            Edit::Delete => (raw::ohakelm_delete as *const (), None),
        };
        let words: [&[usize]; 4] = [&lent(buffer), &spot, entry.as_slice(), &lent(list)];
        self.call(edit_name(edit), call, &words)
    }

    fn pack_read(&self, pack: &[u8]) -> Pack {
        let call = raw::ohakelm_pack_read as *const ();
        self.call("pack_read", call, &[&input(pack)])
    }

    fn pack_message(&self, pack: &[u8], n: u32) -> Stretch {
        let words: [&[usize]; 2] = [&input(pack), &[n as usize]];
        let call = raw::ohakelm_pack_message as *const ();
        self.call("pack_message", call, &words)
    }

    fn pack_write(&self, messages: &[u8], lengths: &[u32], out: &mut [u8]) -> Written {
        let words: [&[usize]; 3] = [&input(messages), &input(lengths), &lent(out)];
        let call = raw::ohakelm_pack_write as *const ();
        self.call("pack_write", call, &words)
    }

    fn pack_salvage(&self, pack: &[u8], out: &mut [u8], report: &mut [u32]) -> Salvage {
        let words: [&[usize]; 3] = [&input(pack), &lent(out), &lent(report)];
        let call = raw::ohakelm_pack_salvage as *const ();
        self.call("pack_salvage", call, &words)
    }

    fn bitmap_read(&self, message: &[u8]) -> Bitmap {
        let call = raw::ohakelm_bitmap_read as *const ();
        self.call("bitmap_read", call, &[&input(message)])
    }

    fn bitmap_write(&self, width: u32, height: u32, image: &[u8], out: &mut [u8]) -> Written {
        let sizes = [width as usize, height as usize];
        let words: [&[usize]; 3] = [&sizes, &input(image), &lent(out)];
        let call = raw::ohakelm_bitmap_write as *const ();
        self.call("bitmap_write", call, &words)
    }

    fn icon_read(&self, message: &[u8]) -> Bitmap {
        let call = raw::ohakelm_icon_read as *const ();
        self.call("icon_read", call, &[&input(message)])
    }

    fn icon_write(&self, width: u32, height: u32, image: &[u8], out: &mut [u8]) -> Written {
        let sizes = [width as usize, height as usize];
        let words: [&[usize]; 3] = [&sizes, &input(image), &lent(out)];
        let call = raw::ohakelm_icon_write as *const ();
        self.call("icon_write", call, &words)
    }

    fn logo_read(&self, message: &[u8]) -> Logo {
        let call = raw::ohakelm_logo_read as *const ();
        self.call("logo_read", call, &[&input(message)])
    }

    fn logo_write(&self, parts: LogoParts, out: &mut [u8]) -> Written {
        let ahead = [input(parts.mcc), input(parts.mnc), input(parts.date)].concat();
        let sizes = [parts.width as usize, parts.height as usize];
        let words: [&[usize]; 4] = [&ahead, &sizes, &input(parts.image), &lent(out)];
        let call = raw::ohakelm_logo_write as *const ();
        self.call("logo_write", call, &words)
    }
}

/// A call as the processor's C makes it. All these answer by way of memory.
#[cfg(target_arch = "x86_64")]
mod processor {
    use std::arch::asm;

    /// Words that go in registers. The others go on the stack.
    pub const REGISTERS: usize = 6;

    /// The place for the answer is the first word.
    pub fn words(answer: usize, words: &[usize]) -> Vec<usize> {
        let mut words = [&[answer], words].concat();
        words.resize(words.len().max(REGISTERS), 0);
        words
    }

    /// Makes a call on another stack. A call gives r12 back as it was.
    pub unsafe fn call_on(stack: *mut u8, call: *const (), words: &[usize]) {
        asm!(
            "mov r12, rsp",
            "mov rsp, {stack}",
            "call {call}",
            "mov rsp, r12",
            stack = in(reg) stack,
            call = in(reg) call,
            in("rdi") words[0],
            in("rsi") words[1],
            in("rdx") words[2],
            in("rcx") words[3],
            in("r8") words[4],
            in("r9") words[5],
            out("r12") _,
            clobber_abi("C"),
        );
    }
}

#[cfg(target_arch = "aarch64")]
mod processor {
    use std::arch::asm;

    /// Words that go in registers. The others go on the stack.
    pub const REGISTERS: usize = 9;

    /// The place for the answer has a register of its own behind the first
    /// eight.
    pub fn words(answer: usize, words: &[usize]) -> Vec<usize> {
        let mut words = words.to_vec();
        words.resize(words.len().max(REGISTERS - 1), 0);
        words.insert(REGISTERS - 1, answer);
        words
    }

    /// Makes a call on another stack. A call gives x20 back as it was.
    pub unsafe fn call_on(stack: *mut u8, call: *const (), words: &[usize]) {
        asm!(
            "mov x20, sp",
            "mov sp, {stack}",
            "blr {call}",
            "mov sp, x20",
            stack = in(reg) stack,
            call = in(reg) call,
            in("x0") words[0],
            in("x1") words[1],
            in("x2") words[2],
            in("x3") words[3],
            in("x4") words[4],
            in("x5") words[5],
            in("x6") words[6],
            in("x7") words[7],
            in("x8") words[8],
            out("x20") _,
            clobber_abi("C"),
        );
    }
}
