//! The functions of include/mippadusk.h behind slices.

mod c {
    unsafe extern "C" {
        pub fn mip_interval(
            s: *const u8,
            s_len: usize,
            f: *const u8,
            f_len: usize,
            number: u64,
            maintenance: u64,
            out: *mut u8,
            out_len: usize,
            at: usize,
        ) -> u64;
        pub fn mip_labels(
            s: *const u8,
            s_len: usize,
            i: *const u8,
            i_len: usize,
            out: *mut u8,
            out_len: usize,
            at: usize,
        ) -> u64;
        pub fn mip_summary(
            s: *const u8,
            s_len: usize,
            first: u64,
            i: *const u8,
            i_len: usize,
            out: *mut u8,
            out_len: usize,
            at: usize,
        ) -> u64;
        pub fn mip_join(
            l: *const u8,
            l_len: usize,
            r: *const u8,
            r_len: usize,
            out: *mut u8,
            out_len: usize,
            at: usize,
        ) -> u64;
        pub fn mip_report(r: *const u8, r_len: usize, figures: *mut u64, figures_len: usize)
        -> u64;
        pub fn mip_verdicts(
            s: *const u8,
            s_len: usize,
            pairs: u64,
            r: *const u8,
            r_len: usize,
            verdicts: *mut u64,
            verdicts_len: usize,
        ) -> u64;
        pub fn mip_delays(
            s: *const u8,
            s_len: usize,
            list: *const u32,
            list_len: usize,
            answers: *mut u64,
            answers_len: usize,
        ) -> u64;
        pub fn mip_start(
            s: *const u8,
            s_len: usize,
            evaluator: *mut u64,
            evaluator_len: usize,
        ) -> u64;
        pub fn mip_step(
            evaluator: *mut u64,
            evaluator_len: usize,
            r: *const u8,
            r_len: usize,
            settled: *mut u64,
            settled_len: usize,
        ) -> u64;
    }
}

// In each of these the pointers and lengths are those of live slices, as include/mippadusk.h asks.

pub fn interval(
    s: &[u8],
    f: &[u8],
    number: u64,
    maintenance: u64,
    out: &mut [u8],
    at: usize,
) -> u64 {
    unsafe {
        c::mip_interval(
            s.as_ptr(),
            s.len(),
            f.as_ptr(),
            f.len(),
            number,
            maintenance,
            out.as_mut_ptr(),
            out.len(),
            at,
        )
    }
}

pub fn labels(s: &[u8], i: &[u8], out: &mut [u8], at: usize) -> u64 {
    unsafe {
        c::mip_labels(
            s.as_ptr(),
            s.len(),
            i.as_ptr(),
            i.len(),
            out.as_mut_ptr(),
            out.len(),
            at,
        )
    }
}

pub fn summary(s: &[u8], first: u64, i: &[u8], out: &mut [u8], at: usize) -> u64 {
    unsafe {
        c::mip_summary(
            s.as_ptr(),
            s.len(),
            first,
            i.as_ptr(),
            i.len(),
            out.as_mut_ptr(),
            out.len(),
            at,
        )
    }
}

pub fn join(l: &[u8], r: &[u8], out: &mut [u8], at: usize) -> u64 {
    unsafe {
        c::mip_join(
            l.as_ptr(),
            l.len(),
            r.as_ptr(),
            r.len(),
            out.as_mut_ptr(),
            out.len(),
            at,
        )
    }
}

pub fn report(r: &[u8], figures: &mut [u64]) -> u64 {
    unsafe { c::mip_report(r.as_ptr(), r.len(), figures.as_mut_ptr(), figures.len()) }
}

pub fn verdicts(s: &[u8], pairs: u64, r: &[u8], verdicts: &mut [u64]) -> u64 {
    unsafe {
        c::mip_verdicts(
            s.as_ptr(),
            s.len(),
            pairs,
            r.as_ptr(),
            r.len(),
            verdicts.as_mut_ptr(),
            verdicts.len(),
        )
    }
}

pub fn delays(s: &[u8], list: &[u32], answers: &mut [u64]) -> u64 {
    unsafe {
        c::mip_delays(
            s.as_ptr(),
            s.len(),
            list.as_ptr(),
            list.len(),
            answers.as_mut_ptr(),
            answers.len(),
        )
    }
}

pub fn start(s: &[u8], evaluator: &mut [u64]) -> u64 {
    unsafe { c::mip_start(s.as_ptr(), s.len(), evaluator.as_mut_ptr(), evaluator.len()) }
}

pub fn step(evaluator: &mut [u64], r: &[u8], settled: &mut [u64]) -> u64 {
    unsafe {
        c::mip_step(
            evaluator.as_mut_ptr(),
            evaluator.len(),
            r.as_ptr(),
            r.len(),
            settled.as_mut_ptr(),
            settled.len(),
        )
    }
}
