//! The one list of cases. A line: a call's name on all sides, what the source is, its class, the words of the table, of
//! which `{}` is the size, and the sizes; behind `|` the sides that have no such call.
//!
//! Classes, with the most instructions that a case may take to the better of std and the original crate: `short` 1.00,
//! and 1.25 if more than 32 bytes move; `long` 1.25; `fields` 1.4; `append` 1.4, and 1.75 if more than 32 bytes move;
//! `whole` has no limit, since its definition asks for more. `client` is 1.25, to the crate of Rust that it names.

macro_rules! listed {
    ($read:ident) => {
        $read! {
            slice_read: bytes short "a slice, `read` of {}" [1 3 7 16 33 100 900 10000];
            slice_exact: bytes short "a slice, `read_exact` of {}" [1 3 7 13 16 33 100 900 10000];
            cursor_read: bytes short "a cursor, `read` of {}" [1 7 16 33 100 900];
            cursor_exact: bytes short "a cursor, `read_exact` of {}" [1 3 7 13 16 100 10000];
            slice_bytes: bytes short "a slice, `bytes`" [1];
            slice_fill: bytes short "a slice, `fill_buf` and `consume` of {}" [1 7 13];
            slice_until: lines short "a slice, `read_until`, lines of {}" [16 80 900 10000] | original;
            slice_lines: lines short "a slice, `lines` of {}" [16 80] | original;
            cursor_lines: lines short "a cursor, `lines` of {}" [16 80] | original;
            cursor_seek: bytes short "a cursor, `seek`" [7];
            cursor_len: bytes short "a cursor, `stream_len`" [7] | original_kit;
            over_slice: bytes short "`Cursor<&mut [u8]>`, `write` of {}" [1 7 16 100];
            over_vec: bytes short "`Cursor<Vec>`, `write_all` of {} over others" [5 7 16 33 65 100 900];
            fields_slice: bytes short "a slice, `read_exact` of a struct's fields" [1];
            fields_over: bytes short "`Cursor<&mut [u8]>`, `write_all` of a struct's fields" [1];

            take_read: bytes long "`Take` over a slice, `read` of {}" [1 7 16 33 100 900];
            chain_read: bytes long "`Chain` of two slices, `read` of {}" [1 7 16 33 100 900];
            records_take: bytes long "`Take` over a slice, `read_exact` of 1 to {} by turns" [32 100];
            records_chain: bytes long "`Chain` of two slices, `read_exact` of 1 to {} by turns" [32 100];
            reference_read: bytes long "a reference to a cursor, `read` of {}" [1 16];
            box_read: bytes long "a boxed cursor, `read` of {}" [1 16];
            object_read: bytes long "a boxed object, `read` of {}" [1 13 16];
            object_write: bytes long "a boxed object, `write` of {}" [1 16];

            vec_write: bytes append "`Vec`, `write` of {}" [1 3 7 13 16 33 100 900];
            vec_write_all: bytes append "`Vec`, `write_all` of {}" [1 3 7 13 16 33 100 900 10000];
            fields_vec: bytes fields "`Vec`, `write_all` of a struct's fields" [1];
            cursor_grows: bytes append "`Cursor<Vec>`, `write_all` of {}, growing" [1 3 7 13 16 33 100 900];
            cursor_gaps: bytes append "`Cursor<Vec>`, `write_all` of {} past the end" [1 5 7 16 33 100];
            fields_grow: bytes fields "`Cursor<Vec>`, `write_all` of a struct's fields" [1];

            writer_all_64: bytes short "`BufWriter` 64, `write_all` of {}" [1 7 16 33 100 900];
            writer_all: bytes short "`BufWriter` 1024, `write_all` of {}" [1 3 7 13 16 33 100 900 10000];
            writer_write: bytes short "`BufWriter` 1024, `write` of {}" [1 7 16 33 100 900];
            writer_vec: bytes short "`BufWriter` 64 to a `Vec`, `write_all` of {}" [1 7 16 100];
            fields_writer: bytes short "`BufWriter` 1024, `write_all` of a struct's fields" [1];
            records_writer: bytes short "`BufWriter` 1024, `write_all` of 1 to {} by turns" [32 100];
            line_writer: lines short "`LineWriter` 1024, lines of {}" [8 40 80 900 10000];
            lines_plain: lines short "`LineWriter` 1024, `write_all` of {} - 1 without a newline" [33 900 10000];
            line_chunks: lines short "`LineWriter` 512, lines of {} by chunks of three quarters" [8 16 40 80 200];
            writer_seek: bytes short "`BufWriter` 64 to a cursor, `write_all` of {} and `seek`" [1 16];
            two_writers: bytes short "`BufWriter` 64 over `BufWriter` 1024, `write_all` of {}" [1 7 16 100];
            seven_write: bytes short "`BufWriter` 64 over a device of seven bytes, `write` of {}" [1 16];
            made_writer: bytes long "`BufWriter` 1024, made, `write_all` of {} and dropped" [16 100];

            reader_read: bytes short "`BufReader` 1024, `read` of {}" [1 3 7 16 33 100 900 10000];
            reader_exact_64: bytes short "`BufReader` 64, `read_exact` of {}" [1 7 16 33 100 900];
            reader_exact: bytes short "`BufReader` 1024, `read_exact` of {}" [1 3 7 13 16 33 100 900 10000];
            reader_bytes: bytes short "`BufReader` 1024, `bytes`" [1];
            reader_fill: bytes short "`BufReader` 1024, `fill_buf` and `consume` of {}" [1 7 13 10000];
            fields_reader: bytes short "`BufReader` 1024, `read_exact` of a struct's fields" [1];
            records_reader: bytes short "`BufReader` 1024, `read_exact` of 1 to {} by turns" [32 100];
            reader_until: lines short "`BufReader` 1024, `read_until`, lines of {}" [16 80 900 10000] | original;
            reader_lines: lines short "`BufReader` 1024, `lines` of {}" [16 80 900] | original;
            slice_line: lines short "a slice, `read_line` of {} into one text" [16 80] | original;
            cursor_line: lines short "a cursor, `read_line` of {} into one text" [16 80] | original;
            reader_line: lines short "`BufReader` 1024, `read_line` of {} into one text" [13 16 33 80 900] | original;
            reader_split: lines short "`BufReader` 1024, `split`, lines of {}" [13 16 80] | original;
            row_fields: rows short "`BufReader` 1024, rows of {} by `read_until`, and their fields" [16 80] | original;
            reader_seek: bytes short "`BufReader` 1024, `seek` by 3 and `read_exact` of 8" [8];
            reader_moves: bytes short "`BufReader` 1024, `seek_relative` of 3 and `read_exact` of 8" [8] | original;
            seven_exact: bytes short "a device of seven bytes, `read_exact` of {}" [7 100];

            text_vec: bytes whole "`Vec`, `write!` of a name and a number" [1];
            texts_vec: bytes whole "`Vec`, `write!` of two constant texts" [1];
            reader_position: bytes whole "`BufReader` 1024, `stream_position` and `read_exact` of 8" [8];
            slice_to_end: bytes whole "a slice, `read_to_end` of {}" [100 900 4096 10000 16777216];
            reader_to_end: bytes whole "`BufReader` 1024, `read_to_end` of {}" [100 900 4096 10000 16777216];
            chain_to_end: bytes whole "`Chain` of two slices, `read_to_end` of {}" [900 4096 16777216];
            take_to_end: bytes whole "`Take` over a slice, `read_to_end` of {}" [900 4096 16777216];
            lent_line: lines short "a reference to a `BufReader` 1024, `read_line` of {} into one text" [40 80] | original;
            chain_line: lines short "`Chain` of two slices, `read_line` of {} into one text" [40 80] | original;
            box_line: lines short "a boxed `BufReader` 1024, `read_line` of {} into one text" [40 80] | original;
            take_line: lines short "`Take` over a slice, `read_line` of {} into one text" [40 80] | original;
            slice_string: lines whole "a slice, `read_to_string` of {} into a new text" [100 5000 1048576] | original;
            reader_string: lines whole "`BufReader` 1024, `read_to_string` of {} into a new text" [100 5000] | original;
            values_writer: bytes whole "`BufWriter` 1024, `write!` of six values" [1];
            queue_turns: bytes whole "a queue, `write_all` and `read_exact` of {}" [16 100 1000] | original;
            queue_held: bytes whole "a queue that holds 3000, `write_all` and `read_exact` of {}" [7 64 1000] | original;
            queue_to_end: bytes whole "a queue, `write_all` of {} and `read_to_end`" [4000] | original;
            frame_send: bytes long "`FrameWriter` 8192, `send` of {}" [1 18 40 100 500 1000] | kit;
            frame_next: frames long "`FrameReader` 8192, `next` of {}" [1 18 100 1000] | kit;
            frame_past: frames whole "`FrameReader` 64, `next` of {}" [1000 100000] | kit;
            copy_to_vec: bytes whole "a copy of a slice of {} into a new vector" [100 10000 65536] | kit;
            copy_short: bytes whole "a copy of {}, through one buffer for all" [100 1000] | kit;
            copy_whole: bytes whole "`copy` 8192 of {}" [16777216];

            numbers_reader: bytes client "`byteorder`, a number of each length from a `BufReader` 1024" [15] | byteorder;
            numbers_into: bytes client "`byteorder`, `read_u16_into` of {} bytes from a `BufReader` 8192" [8 128] | byteorder;
            numbers_vec: bytes client "`byteorder`, a number of each length to a `Vec`" [15] | byteorder;
            numbers_buf: bytes client "`byteorder`, a number of each length to a `BufWriter` 1024" [15] | byteorder;
            base64_encode: letters client "`base64`, `write_all` of {} to an encoder" [57 900 10000] | base64;
            base64_to_end: letters client "`base64`, {} decoded by `read_to_end`" [99 900 9999] | base64;
            base64_exact: letters client "`base64`, `read_exact` of {} from a decoder" [7 40] | base64;
            tar_append: letters client "`tar`, a member of {} appended" [100 900 100000] | tar;
            tar_read: archive client "`tar`, the next of members of {}, and its bytes" [100 900] | tar;
            log_info: bytes client "`log`, a number by `info!`" [1] | log;
            log_text: bytes client "a log, a name and a number by `log_text`" [1] | none;
        }
    };
}

pub(crate) use listed;
