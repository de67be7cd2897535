//! The C entry points of the proved archive (include/sorzibelu.h). Each returns number * 2^32 + value, the number 0 where it accepts.
#[link(name = "c_api", kind = "static")]
unsafe extern "C" {
    pub fn sorzibelu_check(sheet: *const u8, len: usize) -> u64;
    pub fn sorzibelu_flow(sheet: *const u8, len: usize, table: *mut u16, room: usize) -> u64;
    pub fn sorzibelu_live(sheet: *const u8, len: usize, sets: *mut u8, room: usize) -> u64;
    pub fn sorzibelu_live_class(sheets: *const u8, len: usize, sets: *mut u8, room: usize, answers: *mut u32, numbers: usize) -> u64;
    pub fn sorzibelu_rewrite(sheet: *const u8, len: usize, out: *mut u8, room: usize) -> u64;
    pub fn sorzibelu_renumber(sheet: *const u8, len: usize, out: *mut u8, room: usize) -> u64;
    pub fn sorzibelu_label(sheet: *const u8, len: usize, label: u32) -> u64;
    pub fn sorzibelu_page(sheet: *const u8, len: usize, out: *mut u8, room: usize) -> u64;
    pub fn sorzibelu_livelist(sheet: *const u8, len: usize, out: *mut u8, room: usize) -> u64;
    pub fn sorzibelu_in_use(nodes: u32, live: u64, triples: *const u32, len: usize, node: u32) -> u64;
    pub fn sorzibelu_conditional(nodes: u32, live: u64, triples: *const u32, len: usize, node: u32) -> u64;
    pub fn sorzibelu_dying(
        nodes: u32,
        live: u64,
        triples: *const u32,
        len: usize,
        next_nodes: u32,
        next_live: u64,
        next_triples: *const u32,
        next_len: usize,
        out: *mut u8,
        room: usize,
    ) -> u64;
}
