//! The functions of `lasso.h` as they are declared there.
extern "C" {
    pub fn lasso_open(table: *const u8, table_length: usize, answer: *mut [usize; 4]) -> u32;
    pub fn lasso_quote(table: *const u8, table_length: usize, answer: *mut [usize; 9]) -> u32;
    pub fn lasso_search(
        table: *const u8,
        table_length: usize,
        workspace: *mut u32,
        workspace_length: usize,
        report: *mut u32,
        report_length: usize,
        answer: *mut [usize; 4],
    ) -> u32;
    pub fn lasso_translate(table: *const u8, table_length: usize, output: *mut u8, output_length: usize, answer: *mut [usize; 2]) -> u32;
    pub fn lasso_step(
        table: *const u8,
        table_length: usize,
        s: usize,
        t: usize,
        live: bool,
        v: usize,
        next: usize,
        wish: bool,
        answer: *mut [usize; 5],
    ) -> u32;
}
