//! A painted stack of our own: what work on it leaves unpainted tells how deep it went.

use std::ffi::c_void;

const SIZE: usize = 1 << 16;
const ALIGNMENT: usize = 64;
const PAINT: u8 = 0xA5;

/// How many bytes of stack some work takes, the way to it included; or nothing on a processor that this is not written
/// for.
pub fn painted(mut work: &mut dyn FnMut()) -> Option<usize> {
    let mut stack = vec![PAINT; SIZE];
    // The stack begins at an address that both processors take, a few bytes below the end of the memory.
    let range = stack.as_mut_ptr_range();
    let unused = range.end as usize % ALIGNMENT;
    // SAFETY: the memory from its top down is ours alone, and larger than anything that is measured here.
    unsafe { switch(range.end.sub(unused).cast(), (&raw mut work).cast())? };
    let untouched = stack.iter().take_while(|&&byte| byte == PAINT).count();
    assert!(untouched > SIZE / 8, "the painted stack is too short");
    Some(SIZE - unused - untouched)
}

/// Runs the work on the other stack.
extern "C" fn enter(work: *mut c_void) {
    // SAFETY: `painted` hands over its own reference, and waits.
    let work = unsafe { &mut *work.cast::<&mut dyn FnMut()>() };
    work();
}

#[cfg(target_arch = "x86_64")]
unsafe fn switch(top: *mut c_void, work: *mut c_void) -> Option<()> {
    std::arch::asm!(
        "mov r12, rsp",
        "mov rsp, {top}",
        "call {enter}",
        "mov rsp, r12",
        top = in(reg) top,
        enter = in(reg) enter as extern "C" fn(*mut c_void),
        in("rdi") work,
        out("r12") _,
        clobber_abi("C"),
    );
    Some(())
}

#[cfg(target_arch = "aarch64")]
unsafe fn switch(top: *mut c_void, work: *mut c_void) -> Option<()> {
    std::arch::asm!(
        "mov x20, sp",
        "mov sp, {top}",
        "blr {enter}",
        "mov sp, x20",
        top = in(reg) top,
        enter = in(reg) enter as extern "C" fn(*mut c_void),
        in("x0") work,
        out("x20") _,
        clobber_abi("C"),
    );
    Some(())
}

#[cfg(not(any(target_arch = "x86_64", target_arch = "aarch64")))]
unsafe fn switch(_top: *mut c_void, _work: *mut c_void) -> Option<()> {
    None
}

#[cfg(test)]
mod tests {
    use super::painted;
    use std::hint::black_box;

    #[test]
    fn a_large_array_shows() {
        let mut work = || {
            black_box([0u8; 10_000]);
        };
        if let (Some(bytes), Some(base)) = (painted(&mut work), painted(&mut || ())) {
            assert!((10_000..12_000).contains(&(bytes - base)), "{bytes}");
        }
    }
}
