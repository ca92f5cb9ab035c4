//! The proved library's exports (01, "Three calls"): the only foreign code here.

#[allow(unsafe_code)]
mod export {
    extern "C" {
        pub fn ntif_check(
            image: *const u8,
            image_len: usize,
            sets: *mut u8,
            sets_len: usize,
        ) -> u64;
    }

    #[cfg(feature = "step")]
    extern "C" {
        pub fn ntif_start(
            image: *const u8,
            image_len: usize,
            params: *const u8,
            params_len: usize,
            store: *mut u8,
            store_len: usize,
        ) -> u64;

        pub fn ntif_step(
            image: *const u8,
            image_len: usize,
            state: u32,
            store: *mut u8,
            store_len: usize,
            script: *const u8,
            script_len: usize,
            budget: u32,
            label: *mut u8,
            label_len: usize,
        ) -> u64;
    }
}

/// The library's answer for `image`, with its masks left in `sets`.
#[allow(unsafe_code)]
pub fn check(image: &[u8], sets: &mut [u8]) -> u64 {
    // SAFETY: both pointers come with the true lengths of live slices, and the
    // export keeps neither.
    unsafe { export::ntif_check(image.as_ptr(), image.len(), sets.as_mut_ptr(), sets.len()) }
}

/// The library's start, with the first store left in `store`.
#[cfg(feature = "step")]
#[allow(unsafe_code)]
pub fn start(image: &[u8], params: &[u8], store: &mut [u8]) -> u64 {
    // SAFETY: as for `check`; the one slice that is written is borrowed alone.
    unsafe {
        export::ntif_start(
            image.as_ptr(),
            image.len(),
            params.as_ptr(),
            params.len(),
            store.as_mut_ptr(),
            store.len(),
        )
    }
}

/// The library's step, with what moved left in `store` and `label`.
#[cfg(feature = "step")]
#[allow(unsafe_code)]
pub fn step(
    image: &[u8],
    state: u32,
    store: &mut [u8],
    script: &[u8],
    budget: u32,
    label: &mut [u8],
) -> u64 {
    // SAFETY: as for `check`; the two slices that are written are borrowed alone.
    unsafe {
        export::ntif_step(
            image.as_ptr(),
            image.len(),
            state,
            store.as_mut_ptr(),
            store.len(),
            script.as_ptr(),
            script.len(),
            budget,
            label.as_mut_ptr(),
            label.len(),
        )
    }
}
