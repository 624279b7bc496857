//! The static library, declared as include/wavendiru.h has it.

extern "C" {
    pub fn wavendiru_whole_job(text: *const u8, text_len: usize, report: *mut u8, report_len: usize) -> usize;
    pub fn wavendiru_save_job(text: *const u8, text_len: usize, saved: *mut u8, saved_len: usize) -> usize;
    pub fn wavendiru_ratio(value: f64, minimum: f64, maximum: f64) -> u32;
    pub fn wavendiru_channel(start: u8, end: u8, ppm: u32) -> u8;
}

#[cfg(feature = "before")]
extern "C" {
    /// The whole job of an earlier archive, under the name that build.rs gives it.
    pub fn wavendiru_whole_job_before(text: *const u8, text_len: usize, report: *mut u8, report_len: usize) -> usize;
}

#[cfg(feature = "columns")]
extern "C" {
    /// The function of columns_bench/lib.rt.txt: a pointer and a length for each slice.
    pub fn columns_bench(
        text: *const u8,
        text_len: usize,
        repeats: u64,
        widened: bool,
        rows: *mut u32,
        rows_len: usize,
        cols: *mut u16,
        cols_len: usize,
        kinds: *mut u8,
        kinds_len: usize,
        wraps: *mut u8,
        wraps_len: usize,
        nums: *mut u64,
        nums_len: usize,
        ats: *mut u32,
        ats_len: usize,
        lens: *mut u32,
        lens_len: usize,
        region_rows: *mut u32,
        region_rows_len: usize,
        region_cols: *mut u16,
        region_cols_len: usize,
        pool: *mut u8,
        pool_len: usize,
        regions: *mut u32,
        regions_len: usize,
        ruleids: *mut u32,
        ruleids_len: usize,
        markkinds: *mut u32,
        markkinds_len: usize,
        colours: *mut u32,
        colours_len: usize,
        ppms: *mut u32,
        ppms_len: usize,
        shapes: *mut u32,
        shapes_len: usize,
        barrules: *mut u32,
        barrules_len: usize,
        barppms: *mut u32,
        barppms_len: usize,
        scratch: *mut f64,
        scratch_len: usize,
    ) -> u64;
}
