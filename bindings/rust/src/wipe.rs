//! Wiping what a call of the card leaves of keys, below it on the stack and in registers.
//!
//! The card can't wipe its own stack: docs/KEY-HYGIENE.md says why, and what a call leaves.

/// The bytes of stack that each call which sees a key overwrites below itself before it returns, as
/// `card_wipe_stack` of include/card_wipe.h does: more than twice what any call of the card uses, which
/// tests/hygiene holds them to. The feature `no-wipe` switches it off.
pub const WIPED_BYTES: usize = 16_384;

#[cfg(feature = "no-wipe")]
pub fn stack_below() {}

/// Overwrites the stack below its caller, where the card's frames stood: so the function that made the
/// card's call has to call it. Not inlined, or its room would stand above them.
#[cfg(not(feature = "no-wipe"))]
#[inline(never)]
pub fn stack_below() {
    let mut room = std::mem::MaybeUninit::<[u64; WIPED_BYTES / 8]>::uninit();
    let words = room.as_mut_ptr().cast::<u64>();
    for i in 0..WIPED_BYTES / 8 {
        // Safety: the word lies in the room.
        unsafe { words.add(i).write_volatile(0) };
    }
    std::hint::black_box(&mut room);
    clear_registers();
}

/// The registers that a call need not preserve: copies of keys go through the wide ones.
#[cfg(all(not(feature = "no-wipe"), target_arch = "x86_64", not(windows)))]
fn clear_registers() {
    use std::arch::{asm, is_x86_feature_detected};

    let (avx, avx512) = (
        is_x86_feature_detected!("avx"),
        is_x86_feature_detected!("avx512f"),
    );
    // Safety: nothing changes but registers that a call may change, and they are named as changed.
    unsafe {
        asm!(
            ".irp n, 0, 1, 2, 3, 4, 5, 6, 7, 8, 9, 10, 11, 12, 13, 14, 15",
            "pxor xmm\\n, xmm\\n",
            ".endr",
            clobber_abi("sysv64"),
            options(nomem, nostack)
        );
        if avx {
            asm!("vzeroall", clobber_abi("sysv64"), options(nomem, nostack));
        }
        if avx512 {
            asm!(
                ".irp n, 16, 17, 18, 19, 20, 21, 22, 23, 24, 25, 26, 27, 28, 29, 30, 31",
                "vpxorq zmm\\n, zmm\\n, zmm\\n",
                ".endr",
                clobber_abi("sysv64"),
                options(nomem, nostack)
            );
        }
        asm!(
            ".irp n, ax, cx, dx, si, di",
            "xor e\\n, e\\n",
            ".endr",
            ".irp n, 8, 9, 10, 11",
            "xor r\\n, r\\n",
            ".endr",
            clobber_abi("sysv64"),
            options(nomem, nostack)
        );
    }
}

#[cfg(all(not(feature = "no-wipe"), any(not(target_arch = "x86_64"), windows)))]
fn clear_registers() {}
