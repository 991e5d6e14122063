//! The guard's rules written plainly in Rust, for speed alone: the measure that docs/PERFORMANCE.md holds the proved guard against. The same
//! signatures as include/gresomund.h, with the prefix plain_. tests/plain/compare.c and tests/c/mix.c hold it to the proved guard. The words met in a
//! chain are a copy of those in use, made only where a chain is judged; the entries named _sound begin with the release.

const FIRST: u32 = 0x4A10_2000;
const LAST: u32 = 0x4A10_3FF0;
const TEARDOWN_DONE: u32 = 0xFFFF_FFFC;
const QUEUES: usize = 2;
const ALL_MARKS: u32 = (1 << (2 * QUEUES)) - 1;
const SOP: u32 = 1 << 31;
const EOP: u32 = 1 << 30;
const OWNER: u32 = 1 << 29;
const EOQ: u32 = 1 << 28;
const TD: u32 = 1 << 27;

#[repr(C)]
pub struct State {
    heads: [u32; QUEUES],
    hdp: [u32; QUEUES],
    cp: [u32; QUEUES],
    marks: u32,
    tearing: u32,
    reset: u32,
    bit: u32,
    spare: [u32; 2],
}

struct Guard<'a> {
    mem: &'a mut [u8],
    kinds: &'a mut [u8],
    s: &'a mut State,
    used: &'a mut [u8; 2048],
    lens: &'a mut [u16; 2048],
}

type Said = (u32, u32, u32);
const PLAIN: Said = (0, 1, 0);

fn word(mem: &[u8], k: usize) -> u32 {
    u32::from_le_bytes(mem[4 * k..4 * k + 4].try_into().unwrap())
}

fn index(p: u32) -> Option<usize> {
    if p % 4 == 0 && (FIRST..=LAST).contains(&p) { Some(((p - FIRST) / 4) as usize) } else { None }
}

impl Guard<'_> {
    fn word(&self, k: usize) -> u32 {
        word(self.mem, k)
    }

    fn fit(&self) -> bool {
        self.mem.len() == 8192 && (1..=16384).contains(&self.kinds.len()) && self.known()
    }

    /// all() is what comes to mind, and looks at one kind a turn since it may leave at each; the other never leaves, and is compiled to look at
    /// many a turn.
    fn known(&self) -> bool {
        let mut kinds = self.kinds.iter();
        if cfg!(whole_scan) { kinds.fold(0, |most, &k| most.max(k)) <= 4 } else { kinds.all(|&k| k <= 4) }
    }

    fn sound(&self) -> bool {
        if self.s.marks > ALL_MARKS || self.s.tearing >> QUEUES != 0 || self.s.reset > 1 {
            return false;
        }
        let mut met = [0u8; 2048];
        let mut lens = [0u16; 2048];
        for q in 0..QUEUES {
            let mut p = self.s.heads[q];
            while p != 0 {
                let Some(d) = index(p) else { return false };
                if met[d..d + 4].iter().any(|&x| x != 0) {
                    return false;
                }
                met[d..d + 4].fill(1);
                if q == 1 {
                    lens[d] = self.lens[d];
                    if !(1..=2047).contains(&lens[d]) {
                        return false;
                    }
                }
                p = self.word(d);
            }
        }
        met == *self.used && lens == *self.lens
    }

    fn drop_at(&mut self, q: usize, d: usize) {
        self.used[d..d + 4].fill(0);
        self.lens[d] = 0;
        self.s.heads[q] = self.word(d);
    }

    fn release(&mut self) {
        if self.s.reset == 1 && self.s.bit & 1 == 0 {
            for q in 0..QUEUES {
                while let Some(d) = index(self.s.heads[q]) {
                    self.drop_at(q, d);
                }
            }
            self.s.reset = 0;
            self.s.marks = 0;
        }
        for q in 0..QUEUES {
            if self.s.cp[q] == TEARDOWN_DONE {
                self.s.tearing &= !(1 << q);
            }
        }
        for q in 0..QUEUES {
            while let Some(d) = index(self.s.heads[q]) {
                let flags = self.word(d + 3);
                let mut all = flags & TD != 0;
                if !all && flags & OWNER != 0 {
                    break;
                }
                while let Some(d) = index(self.s.heads[q]) {
                    let flags = self.word(d + 3);
                    self.drop_at(q, d);
                    if flags & EOP != 0 && !all {
                        if flags & EOQ == 0 {
                            break;
                        }
                        all = true;
                    }
                }
            }
        }
    }

    fn room(&self, q: usize, lo: u64, n: u64) -> bool {
        if lo < 0x8000_0000 {
            return false;
        }
        let (a, b) = ((lo - 0x8000_0000) >> 12, (lo + n - 1 - 0x8000_0000) >> 12);
        (a..=b).all(|i| self.kinds.get(i as usize).is_some_and(|&k| if q == 0 { k != 0 } else { k == 1 }))
    }

    /// The number of the chain from p, 0 where it has no fault.
    fn chain(&self, q: usize, mut p: u32) -> u32 {
        let mut met = *self.used;
        let mut open: Option<(u32, u32)> = None; // packet length and sum so far
        loop {
            let Some(d) = index(p) else { return 12 };
            if met[d..d + 4].iter().any(|&x| x != 0) {
                return 13;
            }
            let (next, buffer, w2, w3) = (self.word(d), self.word(d + 1), self.word(d + 2), self.word(d + 3));
            if w3 & (EOQ | TD) != 0 {
                return 14;
            }
            let n;
            if q == 0 {
                if (w3 & SOP != 0) != open.is_none() || w3 & SOP != 0 && w3 & OWNER == 0 {
                    return 14;
                }
                n = w2 & 0xFFFF;
            } else {
                if w3 & (OWNER | SOP | EOP) != OWNER {
                    return 14;
                }
                n = w2 & 0x7FF;
            }
            let offset = w2 >> 16;
            let lo = buffer as u64 + if q == 0 && w3 & SOP != 0 { offset as u64 } else { 0 };
            if n == 0 || q == 1 && offset & 0x7FF != 0 || lo + n as u64 > 1 << 32 {
                return 15;
            }
            if !self.room(q, lo, n as u64) {
                return 16;
            }
            if q == 0 {
                let (length, sum) = open.unwrap_or((w3 & 0x7FF, 0));
                let sum = sum + n;
                if w3 & EOP != 0 {
                    if sum != length {
                        return 17;
                    }
                    open = None;
                } else if next == 0 {
                    return 17;
                } else {
                    open = Some((length, sum));
                }
            }
            met[d..d + 4].fill(1);
            if next == 0 {
                return 0;
            }
            p = next;
        }
    }

    fn take(&mut self, q: usize, mut p: u32) {
        while let Some(d) = index(p) {
            self.used[d..d + 4].fill(1);
            if q == 1 {
                self.lens[d] = (self.word(d + 2) & 0x7FF) as u16;
            }
            p = self.word(d);
        }
    }

    fn put(&mut self, k: usize, v: u32) {
        self.mem[4 * k..4 * k + 4].copy_from_slice(&v.to_le_bytes());
    }

    fn last(&self, q: usize, k: usize) -> bool {
        let Some(mut d) = index(self.s.heads[q]) else { return false };
        while let Some(n) = index(self.word(d)) {
            d = n;
        }
        d == k
    }

    fn memory(&mut self, k: usize, v: u32) -> Said {
        if self.used[k] == 0 {
            self.put(k, v);
            return PLAIN;
        }
        if self.word(k) == 0 && v != 0 {
            for q in 0..QUEUES {
                if self.last(q, k) {
                    let n = self.chain(q, v);
                    if n != 0 {
                        return (n, 0, 0);
                    }
                    self.take(q, v);
                    self.put(k, v);
                    return (0, 3, q as u32 + 1);
                }
            }
        }
        (11, 0, 0)
    }

    fn register(&mut self, a: u32, v: u32) -> Said {
        let waits = self.s.marks != ALL_MARKS;
        let no = |n: u32| (n, 0, 0);
        match a & 0xFFF {
            x @ (0xA00 | 0xA20 | 0xA40 | 0xA60) if waits => {
                let (q, cp) = ((x as usize >> 5) & 1, x >= 0xA40);
                if v != 0 {
                    return no(6);
                }
                if cp { self.s.cp[q] = 0 } else { self.s.hdp[q] = 0 }
                self.s.marks |= 1 << (q + QUEUES * cp as usize);
                PLAIN
            }
            x @ (0xA00 | 0xA20) => {
                let q = (x as usize >> 5) & 1;
                if self.s.reset == 1 {
                    return no(7);
                }
                if self.s.tearing >> q & 1 == 1 {
                    return no(8);
                }
                if v == 0 {
                    return no(9);
                }
                if self.s.hdp[q] != 0 || self.s.heads[q] != 0 {
                    return no(10);
                }
                let n = self.chain(q, v);
                if n != 0 {
                    return no(n);
                }
                self.take(q, v);
                self.s.heads[q] = v;
                self.s.hdp[q] = v;
                (0, 2, q as u32 + 1)
            }
            x @ (0xA40 | 0xA60) => {
                let q = (x as usize >> 5) & 1;
                if self.s.cp[q] == v {
                    self.s.cp[q] = 0;
                }
                PLAIN
            }
            x @ (0x808 | 0x818) => {
                let q = (x as usize >> 4) & 1;
                if waits {
                    return no(6);
                }
                if self.s.reset == 1 {
                    return no(7);
                }
                if self.s.tearing >> q & 1 == 1 {
                    return no(8);
                }
                if v != 0 {
                    return no(9);
                }
                if self.s.cp[q] == TEARDOWN_DONE {
                    return no(10);
                }
                self.s.tearing |= 1 << q;
                PLAIN
            }
            0x81C => {
                if waits {
                    return no(6);
                }
                if self.s.reset == 1 {
                    return no(7);
                }
                if self.s.tearing != 0 {
                    return no(8);
                }
                if v != 1 {
                    return no(9);
                }
                self.s.reset = 1;
                self.s.bit = 1;
                PLAIN
            }
            0x820 | 0x828 => if v != 0 { no(9) } else { PLAIN },
            0x804 | 0x814 | 0x888 | 0x88C | 0x894 | 0x8A8 | 0x8AC => PLAIN,
            0x800..=0x8FF | 0xA00..=0xA7F => no(5),
            _ => no(4),
        }
    }

    fn write(&mut self, a: u32, v: u32) -> Said {
        self.release();
        if a % 4 != 0 {
            return (3, 0, 0);
        }
        if (FIRST..FIRST + 8192).contains(&a) {
            return self.memory(((a - FIRST) / 4) as usize, v);
        }
        if a & !0xFFF != 0x4A10_0000 {
            return (4, 0, 0);
        }
        self.register(a, v)
    }

    fn change(&mut self, b: u32, k: u32) -> Said {
        self.release();
        if b as usize >= self.kinds.len() {
            return (18, 0, 0);
        }
        if !(1..=4).contains(&k) {
            return (19, 0, 0);
        }
        if self.kinds[b as usize] == 0 {
            return (20, 0, 0);
        }
        if k != 1 {
            let (start, end) = (0x8000_0000 + 4096 * b as u64, 0x8000_0000 + 4096 * (b as u64 + 1));
            for (d, &n) in self.lens.iter().enumerate() {
                if n != 0 {
                    let lo = self.word(d + 1) as u64;
                    if lo < end && start < lo + n as u64 {
                        return (21, 0, 0);
                    }
                }
            }
        }
        self.kinds[b as usize] = k as u8;
        PLAIN
    }
}

macro_rules! entry {
    ($name:ident, $act:ident, $whole:expr) => {
        /// # Safety
        /// As include/gresomund.h says.
        #[unsafe(no_mangle)]
        pub unsafe extern "C" fn $name(a: u32, v: u32, mem: *mut u8, n: u64, kinds: *mut u8, blocks: u64, s: &mut State, used: &mut [u8; 2048], lens: &mut [u16; 2048]) -> u32 {
            let (mem, kinds) = unsafe { (core::slice::from_raw_parts_mut(mem, n as usize), core::slice::from_raw_parts_mut(kinds, blocks as usize)) };
            let mut g = Guard { mem, kinds, s, used, lens };
            if $whole {
                if !g.fit() {
                    return 1;
                }
                if !g.sound() {
                    return 2;
                }
            }
            let (n, e, q) = g.$act(a, v);
            n + 256 * e + 65536 * q
        }
    };
}
entry!(plain_guest_write, write, true);
entry!(plain_guest_write_sound, write, false);
entry!(plain_kind_change, change, true);
entry!(plain_kind_change_sound, change, false);
