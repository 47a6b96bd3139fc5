// The library's functions. Nothing checks these declarations against the library: for Rust they stand here alone, and for C in
// `include/koodhaxil.h`.

extern "C" {
    fn koodhaxil_read(b: *const u8, b_len: usize, values: *mut usize, values_len: usize) -> usize;

    fn koodhaxil_list(b: *const u8, b_len: usize, t: *mut u8, t_len: usize, values: *mut usize, values_len: usize) -> usize;

    fn koodhaxil_enter(
        n: usize,
        records: *const [u8; 3],
        records_len: usize,
        t: *mut u8,
        t_len: usize,
        values: *mut usize,
        values_len: usize,
    ) -> usize;

    fn koodhaxil_order(n: usize, body: *const u8, body_len: usize, room: *mut u8, room_len: usize, values: *mut usize, values_len: usize) -> usize;

    fn koodhaxil_build(
        n: usize,
        set: u64,
        t: *const u8,
        t_len: usize,
        room: *mut u8,
        room_len: usize,
        values: *mut usize,
        values_len: usize,
    ) -> usize;

    fn koodhaxil_veto(n: usize, set: u64, t: *const u8, t_len: usize, room: *mut u8, room_len: usize, values: *mut usize, values_len: usize)
        -> usize;

    fn koodhaxil_check(n: usize, t: *const u8, t_len: usize, body: *const u8, body_len: usize, values: *mut usize, values_len: usize) -> usize;

    fn koodhaxil_loosen(
        n: usize,
        t: *const u8,
        t_len: usize,
        body: *const u8,
        body_len: usize,
        room: *mut u8,
        room_len: usize,
        list: *mut u64,
        list_len: usize,
        values: *mut usize,
        values_len: usize,
    ) -> usize;

    fn koodhaxil_parse(n: usize, text: *const u8, text_len: usize, room: *mut u8, room_len: usize, values: *mut usize, values_len: usize) -> usize;

    fn koodhaxil_render(n: usize, body: *const u8, body_len: usize, room: *mut u8, room_len: usize, values: *mut usize, values_len: usize) -> usize;

    fn koodhaxil_triple(index: usize, values: *mut usize, values_len: usize) -> usize;
}

/// Reads a collection: document 01's number, with what is returned beside it laid into `values`.
pub fn read(b: &[u8], values: &mut [usize]) -> usize {
    // SAFETY: each pointer comes with the length of the slice that it was taken from, and the slices do not overlap.
    unsafe { koodhaxil_read(b.as_ptr(), b.len(), values.as_mut_ptr(), values.len()) }
}

/// Lists a collection into the table `t`: the number and the values as for `read`.
pub fn list(b: &[u8], t: &mut [u8], values: &mut [usize]) -> usize {
    // SAFETY: as above.
    unsafe { koodhaxil_list(b.as_ptr(), b.len(), t.as_mut_ptr(), t.len(), values.as_mut_ptr(), values.len()) }
}

/// Enters records over `n` species into the table `t`: the number and the values as for `read`.
pub fn enter(n: usize, records: &[[u8; 3]], t: &mut [u8], values: &mut [usize]) -> usize {
    // SAFETY: as above; the length of `records` is their number.
    unsafe { koodhaxil_enter(n, records.as_ptr(), records.len(), t.as_mut_ptr(), t.len(), values.as_mut_ptr(), values.len()) }
}

/// Puts the tree of a body over `n` species in house order, into the front of `room`: the number and the values as for `read`.
pub fn order(n: usize, body: &[u8], room: &mut [u8], values: &mut [usize]) -> usize {
    // SAFETY: as above.
    unsafe { koodhaxil_order(n, body.as_ptr(), body.len(), room.as_mut_ptr(), room.len(), values.as_mut_ptr(), values.len()) }
}

/// Builds the tree of the table `t` over a set of `n` species, into the front of `room`: the number and the values as for `read`.
pub fn build(n: usize, set: u64, t: &[u8], room: &mut [u8], values: &mut [usize]) -> usize {
    // SAFETY: as above.
    unsafe { koodhaxil_build(n, set, t.as_ptr(), t.len(), room.as_mut_ptr(), room.len(), values.as_mut_ptr(), values.len()) }
}

/// Builds with a veto: what is handed in and back is as for `build`.
pub fn veto(n: usize, set: u64, t: &[u8], room: &mut [u8], values: &mut [usize]) -> usize {
    // SAFETY: as above.
    unsafe { koodhaxil_veto(n, set, t.as_ptr(), t.len(), room.as_mut_ptr(), room.len(), values.as_mut_ptr(), values.len()) }
}

/// Checks the candidate of a body against the table `t` over `n` species: the number and the values as for `read`.
pub fn check(n: usize, t: &[u8], body: &[u8], values: &mut [usize]) -> usize {
    // SAFETY: as above.
    unsafe { koodhaxil_check(n, t.as_ptr(), t.len(), body.as_ptr(), body.len(), values.as_mut_ptr(), values.len()) }
}

/// Loosens the candidate of a body by the table `t` over `n` species, into the front of `room`, and the dropped sets into the front of `list`: the
/// number and the values as for `read`.
pub fn loosen(n: usize, t: &[u8], body: &[u8], room: &mut [u8], list: &mut [u64], values: &mut [usize]) -> usize {
    let (room_at, list_at, values_at) = (room.as_mut_ptr(), list.as_mut_ptr(), values.as_mut_ptr());
    // SAFETY: as above; the length of `list` is its number of places.
    unsafe { koodhaxil_loosen(n, t.as_ptr(), t.len(), body.as_ptr(), body.len(), room_at, room.len(), list_at, list.len(), values_at, values.len()) }
}

/// Reads a Newick text over `n` species as a body, into the front of `room`: the number and the values as for `read`.
pub fn parse(n: usize, text: &[u8], room: &mut [u8], values: &mut [usize]) -> usize {
    // SAFETY: as above.
    unsafe { koodhaxil_parse(n, text.as_ptr(), text.len(), room.as_mut_ptr(), room.len(), values.as_mut_ptr(), values.len()) }
}

/// Writes the tree of a body over `n` species as Newick text, into the front of `room`: the number and the values as for `read`.
pub fn render(n: usize, body: &[u8], room: &mut [u8], values: &mut [usize]) -> usize {
    // SAFETY: as above.
    unsafe { koodhaxil_render(n, body.as_ptr(), body.len(), room.as_mut_ptr(), room.len(), values.as_mut_ptr(), values.len()) }
}

/// Is there a triple with this index? 1 with its three species laid into `values`, or 0.
#[allow(dead_code)] // of no use to `bench`
pub fn triple(index: usize, values: &mut [usize]) -> usize {
    // SAFETY: as above.
    unsafe { koodhaxil_triple(index, values.as_mut_ptr(), values.len()) }
}
