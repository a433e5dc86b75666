//! The functions of the static library, as `include/tracker.h` declares them.

extern "C" {
    /// Whether an image is a netlist.
    pub fn tracker_check(image: *const u8, image_length: usize) -> u64;
    /// Sets each register to its start, or to an untrusted 0 where none is given.
    pub fn tracker_power_up(
        image: *const u8,
        image_length: usize,
        state: *mut u8,
        state_length: usize,
    ) -> u64;
    /// Takes one clock cycle.
    pub fn tracker_step(
        image: *const u8,
        image_length: usize,
        state: *mut u8,
        state_length: usize,
        row: *const u8,
        row_length: usize,
        nets: *mut u8,
        nets_length: usize,
    ) -> u64;
    /// Takes k clock cycles.
    pub fn tracker_run(
        image: *const u8,
        image_length: usize,
        k: usize,
        state: *mut u8,
        state_length: usize,
        rows: *const u8,
        rows_length: usize,
        outputs: *mut u8,
        outputs_length: usize,
    ) -> u64;
    /// Sets each register to the code of its start, which is that of an unknown
    /// untrusted bit where none is given.
    pub fn tracker_static_power_up(
        image: *const u8,
        image_length: usize,
        state: *mut u8,
        state_length: usize,
    ) -> u64;
    /// Takes k clock cycles on codes.
    pub fn tracker_static_run(
        image: *const u8,
        image_length: usize,
        k: usize,
        state: *mut u8,
        state_length: usize,
        rows: *const u8,
        rows_length: usize,
        outputs: *mut u8,
        outputs_length: usize,
    ) -> u64;
    /// How many nets the doubled netlist has.
    pub fn tracker_doubled_size(image: *const u8, image_length: usize) -> u64;
    /// How many nets of one kind the doubled netlist has.
    pub fn tracker_doubled_kind(image: *const u8, image_length: usize, kind: usize) -> u64;
    /// Writes the doubled netlist.
    pub fn tracker_double(
        image: *const u8,
        image_length: usize,
        buffer: *mut u8,
        buffer_length: usize,
    ) -> u64;
    /// Writes the pages of a run's outputs.
    pub fn tracker_page(
        image: *const u8,
        image_length: usize,
        k: usize,
        record: *const u8,
        record_length: usize,
        page: *mut u8,
        page_length: usize,
    ) -> u64;
}
