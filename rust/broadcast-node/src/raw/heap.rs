//! The three functions by which the library asks for memory, over the global allocator of the program.
//!
//! The library frees a block by its address alone, so in front of each block stands its size.

use std::alloc::{Layout, alloc, dealloc, realloc};
use std::ptr::NonNull;

/// The room in front of a block, which is also the alignment of each.
const HEAD: usize = 16;

/// Whether there is memory, and where.
#[repr(C)]
pub struct Tried {
    ok: bool,
    p: *mut u8,
}

impl Tried {
    const FAILED: Tried = Tried { ok: false, p: NonNull::dangling().as_ptr() };

    /// Notes the size of the block behind the head at `at`, and returns where it is.
    ///
    /// # Safety
    ///
    /// `at` is null, or a new block of `layout`, whose size is that of the head or more.
    unsafe fn of(at: *mut u8, layout: Layout) -> Tried {
        if at.is_null() {
            return Tried::FAILED;
        }
        // SAFETY: the head is in the block, which is aligned for a `usize`.
        unsafe {
            at.cast::<usize>().write(layout.size());
            Tried { ok: true, p: at.add(HEAD) }
        }
    }
}

/// The layout of a block of `n` bytes with its head, if the head is aligned as the block is to be.
fn layout(n: usize, align: usize) -> Option<Layout> {
    Layout::from_size_align(n.checked_add(HEAD)?, HEAD).ok().filter(|_| align <= HEAD)
}

/// # Safety
///
/// `p` is what one of these functions returned.
unsafe fn head(p: *mut u8) -> (*mut u8, Layout) {
    // SAFETY: the block has a head, in which its size stands.
    unsafe {
        let at = p.sub(HEAD);
        (at, Layout::from_size_align_unchecked(at.cast::<usize>().read(), HEAD))
    }
}

/// Returns a block of `n` bytes. Fails if the alignment is above 16.
#[unsafe(no_mangle)]
extern "C" fn rattle_alloc(n: usize, align: usize) -> Tried {
    match layout(n, align) {
        // SAFETY: the layout is not empty.
        Some(layout) => unsafe { Tried::of(alloc(layout), layout) },
        None => Tried::FAILED,
    }
}

/// Makes the block one of `n` bytes, or leaves it as it was. Fails if the alignment is above 16.
///
/// # Safety
///
/// `p` is what one of these functions returned, and was not freed.
#[unsafe(no_mangle)]
unsafe extern "C" fn rattle_realloc(p: *mut u8, _kept: usize, n: usize, align: usize) -> Tried {
    let Some(new) = layout(n, align) else { return Tried::FAILED };
    // SAFETY: the block is one of these, and the new layout is not empty.
    unsafe {
        let (at, old) = head(p);
        Tried::of(realloc(at, old, new.size()), new)
    }
}

/// Frees the block.
///
/// # Safety
///
/// `p` is what one of these functions returned, and was not freed.
#[unsafe(no_mangle)]
unsafe extern "C" fn rattle_dealloc(p: *mut u8) {
    // SAFETY: the block is one of these.
    unsafe {
        let (at, layout) = head(p);
        dealloc(at, layout);
    }
}

/// The addresses of the three. A call that makes a store names them, so that a linker takes these functions
/// and not those of an archive that has its own.
pub fn addresses() -> [*const (); 3] {
    [rattle_alloc as *const (), rattle_realloc as *const (), rattle_dealloc as *const ()]
}

#[cfg(test)]
mod tests {
    use super::*;

    #[test]
    fn blocks_are_aligned_or_refused() {
        for align in [1, 8, 16] {
            let block = rattle_alloc(100, align);
            assert!(block.ok && block.p.addr().is_multiple_of(align));
            // SAFETY: the block was just made, and is freed once.
            unsafe {
                assert!(!rattle_realloc(block.p, 100, 200, 32).ok);
                let block = rattle_realloc(block.p, 100, 200, align);
                assert!(block.ok);
                rattle_dealloc(block.p);
            }
        }
        assert!(!rattle_alloc(100, 32).ok && !rattle_alloc(usize::MAX, 8).ok);
    }
}
