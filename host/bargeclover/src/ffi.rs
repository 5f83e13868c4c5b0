//! The functions of `include/bargeclover.h` as they are. Each pointer must be good for the length beside it (an out-parameter for
//! one value), aligned, and no two that are written may overlap each other or anything that is read.

unsafe extern "C" {
    pub safe fn bargeclover_exp2(x: u32) -> u32;
    pub safe fn bargeclover_exp(x: u32) -> u32;
    pub safe fn bargeclover_sin(degrees: u32) -> u32;
    pub safe fn bargeclover_cos(degrees: u32) -> u32;
    pub safe fn bargeclover_angle(dx: u32, dy: u32) -> u32;
    pub safe fn bargeclover_magnitude(dx: u32, dy: u32) -> u32;
    pub safe fn bargeclover_fma(a: u32, b: u32, c: u32) -> u32;
    pub safe fn bargeclover_sqrt(x: u32) -> u32;
    pub safe fn bargeclover_narrow(x: u64) -> u32;
    pub safe fn bargeclover_floor(x: u32) -> u32;
    pub safe fn bargeclover_round(x: u32) -> u32;
    pub safe fn bargeclover_to_i32(x: u32) -> i32;

    pub fn bargeclover_threshold(contrast: f64, layers: usize, threshold_bits: *mut u32) -> u32;

    pub fn bargeclover_find_extrema(
        dog: *const f32,
        dog_len: usize,
        width: usize,
        height: usize,
        planes: usize,
        layer: usize,
        octave: u32,
        layers: usize,
        contrast: f64,
        edge: f64,
        sigma: f64,
        out: *mut u32,
        out_len: usize,
        count: *mut usize,
    ) -> u32;

    pub fn bargeclover_thin(
        width: usize,
        height: usize,
        words: *const u32,
        words_len: usize,
        quota: usize,
        depth: u32,
        out: *mut u32,
        out_len: usize,
        count: *mut usize,
    ) -> u32;

    pub fn bargeclover_make_record(
        keypoint: *const u32,
        keypoint_len: usize,
        oriented: *const u32,
        oriented_len: usize,
        values: *const f32,
        values_len: usize,
        samples: usize,
        out: *mut u32,
        out_len: usize,
    ) -> u32;

    pub fn bargeclover_write_sheet(
        edition: u32,
        width: usize,
        height: usize,
        layers: usize,
        words: *const u32,
        words_len: usize,
        out: *mut u8,
        out_len: usize,
        count: *mut usize,
    ) -> u32;

    pub fn bargeclover_read_sheet(
        sheet: *const u8,
        sheet_len: usize,
        out: *mut u32,
        out_len: usize,
        count: *mut usize,
        edition: *mut u32,
        width: *mut usize,
        height: *mut usize,
        layers: *mut usize,
    ) -> u32;

    pub fn bargeclover_check_sheet(
        dog: *const f32,
        dog_len: usize,
        gauss: *const f32,
        gauss_len: usize,
        width: usize,
        height: usize,
        planes: usize,
        octave: u32,
        layers: usize,
        contrast: f64,
        edge: f64,
        sigma: f64,
        base_width: usize,
        base_height: usize,
        sheet: *const u8,
        sheet_len: usize,
        verdict: *mut u32,
        record: *mut usize,
        field: *mut u32,
    ) -> u32;

    pub fn bargeclover_assign_orientations(
        img: *const f32,
        img_len: usize,
        width: usize,
        height: usize,
        keypoint: *const u32,
        keypoint_len: usize,
        out: *mut u32,
        out_len: usize,
        count: *mut usize,
        samples: *mut usize,
    ) -> u32;

    pub fn bargeclover_descriptor_inputs(
        oriented: *const u32,
        oriented_len: usize,
        octave: i32,
        out: *mut u32,
        out_len: usize,
    ) -> u32;

    pub fn bargeclover_compute_descriptor(
        img: *const f32,
        img_len: usize,
        width: usize,
        height: usize,
        x: f32,
        y: f32,
        scale: f32,
        angle: f32,
        out: *mut f32,
        out_len: usize,
        count: *mut usize,
        samples: *mut usize,
    ) -> u32;
}
