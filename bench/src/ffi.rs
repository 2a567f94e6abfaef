//! The C calls of libcapi.a, and safe wrappers that take slices.

use crate::calls::{Engine, Nodes};

extern "C" {
    fn gts_check(model: *const u8, len: usize, sizes: *mut u32, sizes_len: usize) -> u8;
    fn gts_start(
        model: *const u8,
        len: usize,
        values: *mut i32,
        values_len: usize,
        marks: *mut u8,
        marks_len: usize,
        n: *mut usize,
        rounds: *mut usize,
    ) -> u8;
    fn gts_fire(
        model: *const u8,
        len: usize,
        values: *mut i32,
        values_len: usize,
        marks: *mut u8,
        marks_len: usize,
        history: *mut u16,
        history_len: usize,
        n: *mut usize,
        transition: usize,
        rounds: *mut usize,
    ) -> u8;
    fn gts_undo(
        model: *const u8,
        len: usize,
        values: *mut i32,
        values_len: usize,
        marks: *mut u8,
        marks_len: usize,
        history: *const u16,
        history_len: usize,
        n: *mut usize,
    ) -> u8;
    fn gts_marks(
        model: *const u8,
        len: usize,
        values: *const i32,
        values_len: usize,
        marks: *const u8,
        marks_len: usize,
        history: *const u16,
        history_len: usize,
        n: usize,
        buffer: *mut u8,
        buffer_len: usize,
    ) -> u8;
    fn gts_value(
        model: *const u8,
        len: usize,
        values: *const i32,
        values_len: usize,
        marks: *const u8,
        marks_len: usize,
        history: *const u16,
        history_len: usize,
        n: usize,
        variable: usize,
        value: *mut i32,
    ) -> u8;
    fn gts_pick(
        model: *const u8,
        len: usize,
        values: *const i32,
        values_len: usize,
        marks: *const u8,
        marks_len: usize,
        history: *const u16,
        history_len: usize,
        n: usize,
        transition: *mut usize,
        found: *mut u8,
    ) -> u8;
    fn gts_first_outside(
        model: *const u8,
        len: usize,
        values: *const i32,
        values_len: usize,
        variable: *mut usize,
        found: *mut u8,
        looked: *mut usize,
    ) -> u8;
    fn gts_text(
        model: *const u8,
        len: usize,
        text: *const u8,
        text_len: usize,
        kinds: *mut u8,
        kinds_len: usize,
        parameters: *mut i32,
        parameters_len: usize,
        count: *mut usize,
    ) -> u8;
    fn gts_synchronise(
        model: *const u8,
        len: usize,
        mandatory: *const usize,
        mandatory_len: usize,
        optional: *const usize,
        optional_len: usize,
        out: *mut u8,
        out_len: usize,
        length: *mut usize,
    ) -> u8;
    fn gts_rewrite(
        old: *const u8,
        len: usize,
        out: *mut u8,
        out_len: usize,
        length: *mut usize,
    ) -> u8;
    fn gts_windows(
        model: *const u8,
        len: usize,
        kinds: *const u8,
        kinds_len: usize,
        parameters: *const i32,
        parameters_len: usize,
        number_kinds: *const u8,
        number_kinds_len: usize,
        number_parameters: *const i32,
        number_parameters_len: usize,
        window: usize,
        rows: *const i32,
        rows_len: usize,
        figures: *mut i32,
        figures_len: usize,
        count: *mut usize,
    ) -> u8;
}

/// The library in the form of the calls' table.
pub const LIBRARY: Engine = Engine {
    name: "Rattle",
    check,
    start,
    fire,
    undo,
    marks,
    value,
    pick,
    first_outside,
    text,
    synchronise,
    rewrite,
    windows,
};

// In each wrapper the pointers and lengths are those of slices and references that are lent for the call alone.

pub fn check(model: &[u8], sizes: &mut [u32]) -> u8 {
    unsafe { gts_check(model.as_ptr(), model.len(), sizes.as_mut_ptr(), sizes.len()) }
}

pub fn start(
    model: &[u8],
    values: &mut [i32],
    marks: &mut [u8],
    n: &mut usize,
    rounds: &mut usize,
) -> u8 {
    unsafe {
        gts_start(
            model.as_ptr(),
            model.len(),
            values.as_mut_ptr(),
            values.len(),
            marks.as_mut_ptr(),
            marks.len(),
            n,
            rounds,
        )
    }
}

pub fn fire(
    model: &[u8],
    values: &mut [i32],
    marks: &mut [u8],
    history: &mut [u16],
    n: &mut usize,
    transition: usize,
    rounds: &mut usize,
) -> u8 {
    unsafe {
        gts_fire(
            model.as_ptr(),
            model.len(),
            values.as_mut_ptr(),
            values.len(),
            marks.as_mut_ptr(),
            marks.len(),
            history.as_mut_ptr(),
            history.len(),
            n,
            transition,
            rounds,
        )
    }
}

pub fn undo(
    model: &[u8],
    values: &mut [i32],
    marks: &mut [u8],
    history: &[u16],
    n: &mut usize,
) -> u8 {
    unsafe {
        gts_undo(
            model.as_ptr(),
            model.len(),
            values.as_mut_ptr(),
            values.len(),
            marks.as_mut_ptr(),
            marks.len(),
            history.as_ptr(),
            history.len(),
            n,
        )
    }
}

pub fn marks(
    model: &[u8],
    values: &[i32],
    marks: &[u8],
    history: &[u16],
    n: usize,
    buffer: &mut [u8],
) -> u8 {
    unsafe {
        gts_marks(
            model.as_ptr(),
            model.len(),
            values.as_ptr(),
            values.len(),
            marks.as_ptr(),
            marks.len(),
            history.as_ptr(),
            history.len(),
            n,
            buffer.as_mut_ptr(),
            buffer.len(),
        )
    }
}

pub fn value(
    model: &[u8],
    values: &[i32],
    marks: &[u8],
    history: &[u16],
    n: usize,
    variable: usize,
    value: &mut i32,
) -> u8 {
    unsafe {
        gts_value(
            model.as_ptr(),
            model.len(),
            values.as_ptr(),
            values.len(),
            marks.as_ptr(),
            marks.len(),
            history.as_ptr(),
            history.len(),
            n,
            variable,
            value,
        )
    }
}

pub fn pick(
    model: &[u8],
    values: &[i32],
    marks: &[u8],
    history: &[u16],
    n: usize,
    transition: &mut usize,
    found: &mut u8,
) -> u8 {
    unsafe {
        gts_pick(
            model.as_ptr(),
            model.len(),
            values.as_ptr(),
            values.len(),
            marks.as_ptr(),
            marks.len(),
            history.as_ptr(),
            history.len(),
            n,
            transition,
            found,
        )
    }
}

pub fn first_outside(
    model: &[u8],
    values: &[i32],
    variable: &mut usize,
    found: &mut u8,
    looked: &mut usize,
) -> u8 {
    unsafe {
        gts_first_outside(
            model.as_ptr(),
            model.len(),
            values.as_ptr(),
            values.len(),
            variable,
            found,
            looked,
        )
    }
}

pub fn text(
    model: &[u8],
    text: &[u8],
    kinds: &mut [u8],
    parameters: &mut [i32],
    count: &mut usize,
) -> u8 {
    unsafe {
        gts_text(
            model.as_ptr(),
            model.len(),
            text.as_ptr(),
            text.len(),
            kinds.as_mut_ptr(),
            kinds.len(),
            parameters.as_mut_ptr(),
            parameters.len(),
            count,
        )
    }
}

pub fn synchronise(
    model: &[u8],
    mandatory: &[usize],
    optional: &[usize],
    out: &mut [u8],
    length: &mut usize,
) -> u8 {
    unsafe {
        gts_synchronise(
            model.as_ptr(),
            model.len(),
            mandatory.as_ptr(),
            mandatory.len(),
            optional.as_ptr(),
            optional.len(),
            out.as_mut_ptr(),
            out.len(),
            length,
        )
    }
}

pub fn rewrite(old: &[u8], out: &mut [u8], length: &mut usize) -> u8 {
    unsafe { gts_rewrite(old.as_ptr(), old.len(), out.as_mut_ptr(), out.len(), length) }
}

pub fn windows(
    model: &[u8],
    condition: Nodes,
    number: Nodes,
    window: usize,
    rows: &[i32],
    figures: &mut [i32],
    count: &mut usize,
) -> u8 {
    unsafe {
        gts_windows(
            model.as_ptr(),
            model.len(),
            condition.kinds.as_ptr(),
            condition.kinds.len(),
            condition.parameters.as_ptr(),
            condition.parameters.len(),
            number.kinds.as_ptr(),
            number.kinds.len(),
            number.parameters.as_ptr(),
            number.parameters.len(),
            window,
            rows.as_ptr(),
            rows.len(),
            figures.as_mut_ptr(),
            figures.len(),
            count,
        )
    }
}
