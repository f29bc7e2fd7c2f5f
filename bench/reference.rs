//! A plain interpreter of RV64IM over flat memory, not proved: the yardstick that `compare.py` measures `gemcore flat` by.
//!
//! It follows the rules of `gemcore flat` for raw images (16 MiB of RAM at 0x80000000, UART, exit device, machine-mode
//! traps) and prints the same report, so that results are compared as well as speed: `reference IMAGE COUNT`.
use std::io::Write;

const RAM: u64 = 0x8000_0000;
const SIZE: u64 = 16 << 20;

struct Arch {
    pc: u64,
    x: [u64; 32],
    mstatus: u64,
    mie: u64,
    mtvec: u64,
    mscratch: u64,
    mepc: u64,
    mcause: u64,
    mtval: u64,
}

enum Need {
    Nothing,
    Sleep,
    Load(u64, u64),
    Store(u64, u64, u64),
    Trap(u64, u64),
}

fn sx(v: u64, bits: u32) -> u64 {
    (((v << (64 - bits)) as i64) >> (64 - bits)) as u64
}
fn imm_i(w: u32) -> u64 {
    ((w as i32) >> 20) as i64 as u64
}
fn imm_s(w: u32) -> u64 {
    ((((w as i32) >> 25) << 5) | ((w >> 7) & 31) as i32) as i64 as u64
}
fn imm_b(w: u32) -> u64 {
    sx(
        (((w >> 31) & 1) << 12 | ((w >> 7) & 1) << 11 | ((w >> 25) & 63) << 5 | ((w >> 8) & 15) << 1) as u64,
        13,
    )
}
fn imm_j(w: u32) -> u64 {
    sx(
        (((w >> 31) & 1) << 20 | ((w >> 12) & 255) << 12 | ((w >> 20) & 1) << 11 | ((w >> 21) & 1023) << 1) as u64,
        21,
    )
}
fn imm_u(w: u32) -> u64 {
    (w & 0xffff_f000) as i32 as i64 as u64
}

fn csr_read(a: &Arch, n: u32) -> Option<u64> {
    Some(match n {
        0x300 => a.mstatus,
        0x301 => 0x8000_0000_0000_1100,
        0x304 => a.mie,
        0x305 => a.mtvec,
        0x340 => a.mscratch,
        0x341 => a.mepc,
        0x342 => a.mcause,
        0x343 => a.mtval,
        0x344 => 0,
        0xf11..=0xf14 => 0,
        _ => return None,
    })
}
fn csr_write(a: &mut Arch, n: u32, v: u64) {
    match n {
        0x300 => a.mstatus = v & 0x88 | 0x1800,
        0x304 => a.mie = v & 0x888,
        0x305 => a.mtvec = v & !2u64,
        0x340 => a.mscratch = v,
        0x341 => a.mepc = v & !3u64,
        0x342 => a.mcause = v,
        0x343 => a.mtval = v,
        _ => {}
    }
}
fn csr_writes(w: u32) -> bool {
    (w >> 12) & 3 == 1 || (w >> 15) & 31 != 0
}

#[inline(always)]
fn op_legal(w: u32) -> bool {
    let (f3, f7) = ((w >> 12) & 7, w >> 25);
    match w & 0x7f {
        0x37 | 0x17 | 0x6f => true,
        0x67 => f3 == 0,
        0x63 => f3 != 2 && f3 != 3,
        0x03 => f3 != 7,
        0x23 => f3 < 4,
        0x13 => match f3 {
            1 => w >> 26 == 0,
            5 => w >> 26 == 0 || w >> 26 == 0x10,
            _ => true,
        },
        0x33 => match f7 {
            0 | 1 => true,
            0x20 => f3 == 0 || f3 == 5,
            _ => false,
        },
        0x1b => match f3 {
            0 => true,
            1 => f7 == 0,
            5 => f7 == 0 || f7 == 0x20,
            _ => false,
        },
        0x3b => match f7 {
            0 => f3 == 0 || f3 == 1 || f3 == 5,
            0x20 => f3 == 0 || f3 == 5,
            1 => f3 == 0 || f3 >= 4,
            _ => false,
        },
        0x0f => f3 < 2,
        0x73 => matches!(w, 0x73 | 0x0010_0073 | 0x3020_0073 | 0x1050_0073) || f3 & 3 != 0,
        _ => false,
    }
}
fn target(a: &Arch, w: u32) -> Option<u64> {
    let (r1, r2) = (a.x[((w >> 15) & 31) as usize], a.x[((w >> 20) & 31) as usize]);
    match w & 0x7f {
        0x6f => Some(a.pc.wrapping_add(imm_j(w))),
        0x67 => Some(r1.wrapping_add(imm_i(w)) & !1),
        0x63 => {
            let take = match (w >> 12) & 7 {
                0 => r1 == r2,
                1 => r1 != r2,
                4 => (r1 as i64) < r2 as i64,
                5 => r1 as i64 >= r2 as i64,
                6 => r1 < r2,
                _ => r1 >= r2,
            };
            if take {
                Some(a.pc.wrapping_add(imm_b(w)))
            } else {
                None
            }
        }
        _ => None,
    }
}
#[inline(always)]
fn need(a: &Arch, w: u32) -> Need {
    if !op_legal(w) {
        return Need::Trap(2, w as u64);
    }
    let r1 = a.x[((w >> 15) & 31) as usize];
    match w & 0x7f {
        0x6f | 0x67 | 0x63 => match target(a, w) {
            Some(t) if t & 3 != 0 => Need::Trap(0, t),
            _ => Need::Nothing,
        },
        0x03 => {
            let (addr, size) = (r1.wrapping_add(imm_i(w)), 1u64 << ((w >> 12) & 3));
            if addr & (size - 1) != 0 {
                Need::Trap(4, addr)
            } else {
                Need::Load(addr, size)
            }
        }
        0x23 => {
            let (addr, size) = (r1.wrapping_add(imm_s(w)), 1u64 << ((w >> 12) & 3));
            if addr & (size - 1) != 0 {
                Need::Trap(6, addr)
            } else {
                Need::Store(addr, size, a.x[((w >> 20) & 31) as usize])
            }
        }
        0x73 => match w {
            0x73 => Need::Trap(11, 0),
            0x0010_0073 => Need::Trap(3, 0),
            0x3020_0073 => Need::Nothing,
            0x1050_0073 => Need::Sleep,
            _ => {
                if csr_read(a, w >> 20).is_none() || (csr_writes(w) && w >> 30 == 3) {
                    Need::Trap(2, w as u64)
                } else {
                    Need::Nothing
                }
            }
        },
        _ => Need::Nothing,
    }
}
#[inline(always)]
fn finish(a: &mut Arch, w: u32, v: u64) {
    let (r1, r2) = (a.x[((w >> 15) & 31) as usize], a.x[((w >> 20) & 31) as usize]);
    let (f3, f7, rd) = ((w >> 12) & 7, w >> 25, ((w >> 7) & 31) as usize);
    let w32 = |v: u32| v as i32 as i64 as u64;
    let mut next = a.pc.wrapping_add(4);
    let value = match w & 0x7f {
        0x37 => imm_u(w),
        0x17 => a.pc.wrapping_add(imm_u(w)),
        0x6f | 0x67 => {
            let link = next;
            next = target(a, w).unwrap();
            link
        }
        0x63 => {
            if let Some(t) = target(a, w) {
                a.pc = t
            } else {
                a.pc = next
            }
            return;
        }
        0x03 => match f3 {
            0 => sx(v, 8),
            1 => sx(v, 16),
            2 => sx(v, 32),
            _ => v,
        },
        0x13 => {
            let i = imm_i(w);
            match f3 {
                0 => r1.wrapping_add(i),
                1 => r1 << (i & 63),
                2 => ((r1 as i64) < i as i64) as u64,
                3 => (r1 < i) as u64,
                4 => r1 ^ i,
                5 => {
                    if w >> 26 == 0 {
                        r1 >> (i & 63)
                    } else {
                        (r1 as i64 >> (i & 63)) as u64
                    }
                }
                6 => r1 | i,
                _ => r1 & i,
            }
        }
        0x33 => match (f7, f3) {
            (0, 0) => r1.wrapping_add(r2),
            (0x20, 0) => r1.wrapping_sub(r2),
            (0, 1) => r1 << (r2 & 63),
            (0, 2) => ((r1 as i64) < r2 as i64) as u64,
            (0, 3) => (r1 < r2) as u64,
            (0, 4) => r1 ^ r2,
            (0, 5) => r1 >> (r2 & 63),
            (0x20, 5) => (r1 as i64 >> (r2 & 63)) as u64,
            (0, 6) => r1 | r2,
            (0, 7) => r1 & r2,
            (1, 0) => r1.wrapping_mul(r2),
            (1, 1) => ((r1 as i64 as i128 * r2 as i64 as i128) >> 64) as u64,
            (1, 2) => ((r1 as i64 as i128 * r2 as i128) >> 64) as u64,
            (1, 3) => ((r1 as u128 * r2 as u128) >> 64) as u64,
            (1, 4) => {
                if r2 == 0 {
                    u64::MAX
                } else {
                    (r1 as i64).wrapping_div(r2 as i64) as u64
                }
            }
            (1, 5) => {
                if r2 == 0 {
                    u64::MAX
                } else {
                    r1 / r2
                }
            }
            (1, 6) => {
                if r2 == 0 {
                    r1
                } else {
                    (r1 as i64).wrapping_rem(r2 as i64) as u64
                }
            }
            (1, 7) => {
                if r2 == 0 {
                    r1
                } else {
                    r1 % r2
                }
            }
            _ => unreachable!(),
        },
        0x1b => match f3 {
            0 => w32(r1.wrapping_add(imm_i(w)) as u32),
            1 => w32((r1 as u32) << ((w >> 20) & 31)),
            _ => {
                if f7 == 0 {
                    w32(r1 as u32 >> ((w >> 20) & 31))
                } else {
                    (r1 as i32 >> ((w >> 20) & 31)) as i64 as u64
                }
            }
        },
        0x3b => {
            let (p, q) = (r1 as u32, r2 as u32);
            match (f7, f3) {
                (0, 0) => w32(p.wrapping_add(q)),
                (0x20, 0) => w32(p.wrapping_sub(q)),
                (0, 1) => w32(p << (q & 31)),
                (0, 5) => w32(p >> (q & 31)),
                (0x20, 5) => (p as i32 >> (q & 31)) as i64 as u64,
                (1, 0) => w32(p.wrapping_mul(q)),
                (1, 4) => {
                    if q == 0 {
                        u64::MAX
                    } else {
                        w32((p as i32).wrapping_div(q as i32) as u32)
                    }
                }
                (1, 5) => {
                    if q == 0 {
                        u64::MAX
                    } else {
                        w32(p / q)
                    }
                }
                (1, 6) => {
                    if q == 0 {
                        w32(p)
                    } else {
                        w32((p as i32).wrapping_rem(q as i32) as u32)
                    }
                }
                (1, 7) => {
                    if q == 0 {
                        w32(p)
                    } else {
                        w32(p % q)
                    }
                }
                _ => unreachable!(),
            }
        }
        0x73 => {
            if w == 0x3020_0073 {
                a.mstatus = 0x1880 | (a.mstatus >> 4 & 8);
                a.pc = a.mepc;
                return;
            }
            let n = w >> 20;
            let old = csr_read(a, n).unwrap_or(0);
            let src = if f3 & 4 != 0 { ((w >> 15) & 31) as u64 } else { r1 };
            if csr_writes(w) {
                let new = match f3 & 3 {
                    1 => src,
                    2 => old | src,
                    _ => old & !src,
                };
                csr_write(a, n, new);
            }
            old
        }
        _ => {
            a.pc = next;
            return;
        }
    };
    if rd != 0 {
        a.x[rd] = value;
    }
    a.pc = next;
}
fn enter(a: &mut Arch, cause: u64, tval: u64) {
    a.mepc = a.pc;
    a.mcause = cause;
    a.mtval = tval;
    a.mstatus = 0x1800 | (a.mstatus & 8) << 4;
    a.pc = a.mtvec & !3;
}
#[inline(always)]
fn offset(addr: u64, size: u64) -> Option<usize> {
    let o = addr.wrapping_sub(RAM);
    if o <= SIZE - size {
        Some(o as usize)
    } else {
        None
    }
}
#[inline(always)]
fn load(m: &[u8], o: usize, size: u64) -> u64 {
    match size {
        1 => m[o] as u64,
        2 => u16::from_le_bytes(m[o..o + 2].try_into().unwrap()) as u64,
        4 => u32::from_le_bytes(m[o..o + 4].try_into().unwrap()) as u64,
        _ => u64::from_le_bytes(m[o..o + 8].try_into().unwrap()),
    }
}

fn main() {
    let args: Vec<String> = std::env::args().collect();
    let image = std::fs::read(&args[1]).unwrap();
    let count: u64 = args[2].parse().unwrap();
    let mut m = vec![0u8; SIZE as usize];
    m[..image.len()].copy_from_slice(&image);
    let mut a = Arch {
        pc: RAM,
        x: [0; 32],
        mstatus: 0x1800,
        mie: 0,
        mtvec: 0,
        mscratch: 0,
        mepc: 0,
        mcause: 0,
        mtval: 0,
    };
    let mut out = std::io::BufWriter::new(std::io::stdout());
    let (mut steps, mut code, mut asleep) = (0u64, None, false);
    let reason = loop {
        if let Some(c) = code {
            break format!("exit {c}");
        }
        if asleep {
            break "idle".to_string();
        }
        if steps == count {
            break "count".to_string();
        }
        steps += 1;
        let Some(o) = offset(a.pc, 4) else {
            let pc = a.pc;
            enter(&mut a, 1, pc);
            continue;
        };
        let w = load(&m, o, 4) as u32;
        match need(&a, w) {
            Need::Nothing => finish(&mut a, w, 0),
            Need::Sleep => {
                finish(&mut a, w, 0);
                asleep = true;
            }
            Need::Trap(c, t) => enter(&mut a, c, t),
            Need::Load(addr, size) => match offset(addr, size) {
                Some(o) => {
                    let v = load(&m, o, size);
                    finish(&mut a, w, v);
                }
                None => {
                    if size == 1 && (0x1000_0000..0x1000_0008).contains(&addr) {
                        finish(&mut a, w, if addr & 7 == 5 { 0x20 } else { 0 })
                    } else {
                        enter(&mut a, 5, addr)
                    }
                }
            },
            Need::Store(addr, size, value) => match offset(addr, size) {
                Some(o) => {
                    m[o..o + size as usize].copy_from_slice(&value.to_le_bytes()[..size as usize]);
                    finish(&mut a, w, 0);
                }
                None => {
                    if size == 1 && (0x1000_0000..0x1000_0008).contains(&addr) {
                        if addr == 0x1000_0000 {
                            out.write_all(&[value as u8]).unwrap();
                        }
                        finish(&mut a, w, 0);
                    } else if size == 4 && addr == 0x10_0000 {
                        code = Some(value as u32);
                        finish(&mut a, w, 0);
                    } else {
                        enter(&mut a, 7, addr)
                    }
                }
            },
        }
    };
    out.flush().unwrap();
    eprintln!("flat {reason} steps {steps}");
    eprintln!("pc {:016x}", a.pc);
    for k in 1..32 {
        if a.x[k] != 0 {
            eprintln!("x{k} {:016x}", a.x[k]);
        }
    }
    for (n, v) in [
        ("mstatus", a.mstatus),
        ("mie", a.mie),
        ("mtvec", a.mtvec),
        ("mscratch", a.mscratch),
        ("mepc", a.mepc),
        ("mcause", a.mcause),
        ("mtval", a.mtval),
    ] {
        if v != 0 {
            eprintln!("{n} {v:016x}");
        }
    }
}
