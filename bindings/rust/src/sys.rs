//! The calls of recline.h. A text crosses as a pointer and then a length.

extern "C" {
    fn recline_root(name: *const u8, name_len: usize, out: *mut u8, out_len: usize) -> i64;
    fn recline_born(start: *const u8, start_len: usize, out: *mut u8, out_len: usize) -> i64;
    fn recline_work(state: *const u8, state_len: usize, out: *mut u8, out_len: usize) -> i64;
    fn recline_check(state: *const u8, state_len: usize, out: *mut u8, out_len: usize) -> i64;
    fn recline_present(state: *const u8, state_len: usize, out: *mut u8, out_len: usize) -> i64;
    fn recline_send(state: *const u8, state_len: usize, out: *mut u8, out_len: usize) -> i64;
    fn recline_again(state: *const u8, state_len: usize, message: *const u8, message_len: usize, out: *mut u8, out_len: usize) -> i64;
    fn recline_receive(state: *const u8, state_len: usize, message: *const u8, message_len: usize, out: *mut u8, out_len: usize) -> i64;
    fn recline_fork(state: *const u8, state_len: usize, child: *const u8, child_len: usize, out: *mut u8, out_len: usize) -> i64;
    fn recline_fork_small(state: *const u8, state_len: usize, child: *const u8, child_len: usize, depth: u8, out: *mut u8, out_len: usize) -> i64;
    fn recline_retire(state: *const u8, state_len: usize, target: *const u8, target_len: usize, out: *mut u8, out_len: usize) -> i64;
    fn recline_absorb(state: *const u8, state_len: usize, retirement: *const u8, retirement_len: usize, out: *mut u8, out_len: usize) -> i64;
    fn recline_absorb_kept(state: *const u8, state_len: usize, retirement: *const u8, retirement_len: usize, out: *mut u8, out_len: usize) -> i64;
    fn recline_return_to(state: *const u8, state_len: usize, kept: *const u8, kept_len: usize, epoch: u32, out: *mut u8, out_len: usize) -> i64;
    fn recline_returned(state: *const u8, state_len: usize, epoch: u32, out: *mut u8, out_len: usize) -> i64;
}

pub fn root(name: &str, out: &mut [u8]) -> i64 {
    // SAFETY: recline.h asks for pointers that are not null, each to as many bytes as the length behind it says, of which none is also out's.
    unsafe { recline_root(name.as_ptr(), name.len(), out.as_mut_ptr(), out.len()) }
}

pub fn born(start: &str, out: &mut [u8]) -> i64 {
    // SAFETY: recline.h asks for pointers that are not null, each to as many bytes as the length behind it says, of which none is also out's.
    unsafe { recline_born(start.as_ptr(), start.len(), out.as_mut_ptr(), out.len()) }
}

pub fn work(state: &str, out: &mut [u8]) -> i64 {
    // SAFETY: recline.h asks for pointers that are not null, each to as many bytes as the length behind it says, of which none is also out's.
    unsafe { recline_work(state.as_ptr(), state.len(), out.as_mut_ptr(), out.len()) }
}

pub fn check(state: &str, out: &mut [u8]) -> i64 {
    // SAFETY: recline.h asks for pointers that are not null, each to as many bytes as the length behind it says, of which none is also out's.
    unsafe { recline_check(state.as_ptr(), state.len(), out.as_mut_ptr(), out.len()) }
}

pub fn present(state: &str, out: &mut [u8]) -> i64 {
    // SAFETY: recline.h asks for pointers that are not null, each to as many bytes as the length behind it says, of which none is also out's.
    unsafe { recline_present(state.as_ptr(), state.len(), out.as_mut_ptr(), out.len()) }
}

pub fn send(state: &str, out: &mut [u8]) -> i64 {
    // SAFETY: recline.h asks for pointers that are not null, each to as many bytes as the length behind it says, of which none is also out's.
    unsafe { recline_send(state.as_ptr(), state.len(), out.as_mut_ptr(), out.len()) }
}

pub fn again(state: &str, message: &str, out: &mut [u8]) -> i64 {
    // SAFETY: recline.h asks for pointers that are not null, each to as many bytes as the length behind it says, of which none is also out's.
    unsafe { recline_again(state.as_ptr(), state.len(), message.as_ptr(), message.len(), out.as_mut_ptr(), out.len()) }
}

pub fn receive(state: &str, message: &str, out: &mut [u8]) -> i64 {
    // SAFETY: recline.h asks for pointers that are not null, each to as many bytes as the length behind it says, of which none is also out's.
    unsafe { recline_receive(state.as_ptr(), state.len(), message.as_ptr(), message.len(), out.as_mut_ptr(), out.len()) }
}

pub fn fork(state: &str, child: &str, out: &mut [u8]) -> i64 {
    // SAFETY: recline.h asks for pointers that are not null, each to as many bytes as the length behind it says, of which none is also out's.
    unsafe { recline_fork(state.as_ptr(), state.len(), child.as_ptr(), child.len(), out.as_mut_ptr(), out.len()) }
}

pub fn fork_small(state: &str, child: &str, depth: u8, out: &mut [u8]) -> i64 {
    // SAFETY: recline.h asks for pointers that are not null, each to as many bytes as the length behind it says, of which none is also out's.
    unsafe { recline_fork_small(state.as_ptr(), state.len(), child.as_ptr(), child.len(), depth, out.as_mut_ptr(), out.len()) }
}

pub fn retire(state: &str, target: &str, out: &mut [u8]) -> i64 {
    // SAFETY: recline.h asks for pointers that are not null, each to as many bytes as the length behind it says, of which none is also out's.
    unsafe { recline_retire(state.as_ptr(), state.len(), target.as_ptr(), target.len(), out.as_mut_ptr(), out.len()) }
}

pub fn absorb(state: &str, retirement: &str, out: &mut [u8]) -> i64 {
    // SAFETY: recline.h asks for pointers that are not null, each to as many bytes as the length behind it says, of which none is also out's.
    unsafe { recline_absorb(state.as_ptr(), state.len(), retirement.as_ptr(), retirement.len(), out.as_mut_ptr(), out.len()) }
}

pub fn absorb_kept(state: &str, retirement: &str, out: &mut [u8]) -> i64 {
    // SAFETY: recline.h asks for pointers that are not null, each to as many bytes as the length behind it says, of which none is also out's.
    unsafe { recline_absorb_kept(state.as_ptr(), state.len(), retirement.as_ptr(), retirement.len(), out.as_mut_ptr(), out.len()) }
}

pub fn return_to(state: &str, kept: &str, epoch: u32, out: &mut [u8]) -> i64 {
    // SAFETY: recline.h asks for pointers that are not null, each to as many bytes as the length behind it says, of which none is also out's.
    unsafe { recline_return_to(state.as_ptr(), state.len(), kept.as_ptr(), kept.len(), epoch, out.as_mut_ptr(), out.len()) }
}

pub fn returned(state: &str, epoch: u32, out: &mut [u8]) -> i64 {
    // SAFETY: recline.h asks for pointers that are not null, each to as many bytes as the length behind it says, of which none is also out's.
    unsafe { recline_returned(state.as_ptr(), state.len(), epoch, out.as_mut_ptr(), out.len()) }
}
