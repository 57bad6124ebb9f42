//! The functions of the library for C, as comfy_table.h declares them. Nothing checks that these declarations match the library
//! that is linked.

pub mod numbers;

use numbers::{Cell, CellsSettings, Column, Look, Row, RowsColumn, RowsSettings};
use std::ptr;

unsafe extern "C" {
    fn comfy_cells_draw(
        texts: *const u8,
        texts_length: usize,
        cells: *const Cell,
        cells_length: usize,
        rows: *const Row,
        rows_length: usize,
        columns: *const Column,
        columns_length: usize,
        indicator: *const u8,
        indicator_length: usize,
        settings: *const CellsSettings,
        output: *mut u8,
        output_length: usize,
        needed: *mut usize,
    ) -> u32;

    fn comfy_rows_draw(
        texts: *const u8,
        texts_length: usize,
        lengths: *const usize,
        lengths_length: usize,
        counts: *const usize,
        counts_length: usize,
        looks: *const Look,
        looks_length: usize,
        heights: *const usize,
        heights_length: usize,
        columns: *const RowsColumn,
        columns_length: usize,
        settings: *const RowsSettings,
        output: *mut u8,
        output_length: usize,
        needed: *mut usize,
    ) -> u32;

    fn comfy_csv_draw(
        input: *const u8,
        input_length: usize,
        arguments: *const u8,
        arguments_length: usize,
        output: *mut u8,
        output_length: usize,
        needed: *mut usize,
    ) -> u32;
}

// Three results of the functions. There is also 1, which means that the room for the drawing was too small.
const DRAWN: u32 = 0;
const INPUT_REFUSED: u32 = 2;
const OUT_OF_MEMORY: u32 = 3;

/// The error of a call for which memory ran out.
#[derive(Debug)]
pub struct OutOfMemory;

/// A table of cells: the texts of all cells, one after another, and the settings of the cells, rows and columns in the numbers of
/// comfy_table.h.
#[derive(Default)]
pub struct CellTable {
    pub texts: String,
    pub cells: Vec<Cell>,
    pub rows: Vec<Row>,
    pub columns: Vec<Column>,
}

/// Draws a table of cells. `indicator` is the truncation indicator. `room` is the number of bytes that are allocated for the
/// drawing. If the drawing has more bytes, the table is drawn a second time. The only error is that memory runs out: the library
/// refuses only lengths, counts, texts and settings that this package never passes.
pub fn draw_cells(table: &CellTable, indicator: &str, settings: &CellsSettings, room: usize) -> Result<String, OutOfMemory> {
    let (status, drawing) = written(room, |output, room, needed| {
        // SAFETY: each pointer and length belongs to a slice or a vector that is borrowed for the call, or to the room for the
        // output. None of these overlap. The function demands nothing else of its arguments.
        unsafe {
            comfy_cells_draw(
                table.texts.as_ptr(),
                table.texts.len(),
                table.cells.as_ptr(),
                table.cells.len(),
                table.rows.as_ptr(),
                table.rows.len(),
                table.columns.as_ptr(),
                table.columns.len(),
                indicator.as_ptr(),
                indicator.len(),
                settings,
                output,
                room,
                needed,
            )
        }
    })?;
    assert_eq!(status, DRAWN, "comfy_cells_draw refuses a table of this package");
    Ok(drawing)
}

/// The texts of rows, one after another.
#[derive(Clone, Debug, Default)]
pub struct Texts {
    pub joined: String,
    /// The number of bytes of each text.
    pub lengths: Vec<usize>,
    /// The number of texts of each row.
    pub counts: Vec<usize>,
}

/// Draws rows of texts. `columns` has the settings of each column that a row has. The only error is that memory runs out: the
/// library refuses only lengths, counts, texts and settings that this package never passes.
pub fn draw_rows(texts: &Texts, columns: &[RowsColumn], settings: &RowsSettings) -> Result<String, OutOfMemory> {
    let room = room_for(texts.joined.len() + 8 * texts.lengths.len());
    let (status, drawing) = written(room, |output, room, needed| {
        // SAFETY: as above.
        unsafe {
            comfy_rows_draw(
                texts.joined.as_ptr(),
                texts.joined.len(),
                texts.lengths.as_ptr(),
                texts.lengths.len(),
                texts.counts.as_ptr(),
                texts.counts.len(),
                ptr::null(),
                0,
                ptr::null(),
                0,
                columns.as_ptr(),
                columns.len(),
                settings,
                output,
                room,
                needed,
            )
        }
    })?;
    assert_eq!(status, DRAWN, "comfy_rows_draw refuses settings of this package");
    Ok(drawing)
}

/// The text that csvtable writes for an input and arguments: a drawing, or a message about the input or about the arguments.
pub enum CsvAnswer {
    Drawing(String),
    OfInput(String),
    OfArguments(String),
}

/// Draws CSV with arguments of csvtable. In `arguments`, a zero byte ends each argument. The only error is that memory runs out.
pub fn draw_csv(input: &[u8], arguments: &str) -> Result<CsvAnswer, OutOfMemory> {
    let (status, text) = written(room_for(input.len()), |output, room, needed| {
        // SAFETY: as above.
        unsafe { comfy_csv_draw(input.as_ptr(), input.len(), arguments.as_ptr(), arguments.len(), output, room, needed) }
    })?;
    Ok(match status {
        DRAWN => CsvAnswer::Drawing(text),
        INPUT_REFUSED => CsvAnswer::OfInput(text),
        _ => CsvAnswer::OfArguments(text),
    })
}

// A number of bytes that is enough for most drawings of an input with `size` bytes.
fn room_for(size: usize) -> usize {
    size.saturating_mul(4).saturating_add(4096)
}

// Returns the result of a call, and the text that it writes. `room` is the number of bytes allocated for the text. If the text
// needs more, a second call gets as many bytes as it needs. Memory pages of the room that stay unused cost nothing. If the room
// can't be allocated, the first call only finds out how many bytes are needed.
fn written(room: usize, mut call: impl FnMut(*mut u8, usize, &mut usize) -> u32) -> Result<(u32, String), OutOfMemory> {
    let mut output = Vec::new();
    let _ = output.try_reserve_exact(room);
    loop {
        let room = output.capacity();
        let mut needed = 0;
        let status = call(output.as_mut_ptr(), room, &mut needed);
        if status == OUT_OF_MEMORY {
            return Err(OutOfMemory);
        }
        if needed <= room {
            // SAFETY: if the room is enough, the functions write the first `needed` bytes, and these are UTF-8. Both are proved.
            let text = unsafe {
                output.set_len(needed);
                String::from_utf8_unchecked(output)
            };
            return Ok((status, text));
        }
        output = Vec::new();
        output.try_reserve_exact(needed).map_err(|_| OutOfMemory)?;
    }
}
