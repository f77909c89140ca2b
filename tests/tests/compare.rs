//! Tests the comparison itself: it finds no difference between the other decoder and itself, but finds wrong implementations.

mod found;

use format3_tests::compare::{
    changed_fields, coefficients, headers, pictures, transforms, vectors,
};
use format3_tests::compare_blocks::blocks;
use format3_tests::compare_encoding::encoded_vectors;
use format3_tests::compare_limits::limits;
use format3_tests::compare_misfits::misfits;
use format3_tests::compare_room_slices::room_slices;
use format3_tests::compare_rows::{row_masks, rows};
use format3_tests::compare_slices::{
    changed_slices, ended_slices, long_slices, slices, stream_slices,
};
use format3_tests::decoder::{
    Answer, Entries, FileStart, Given, ReadHeader, ReadSlice, Reconstruct, SliceAnswer,
    Transformed, ENTRIES,
};
use format3_tests::generator::{record_ends, ROOM};
use found::require_found;

const SEED: u64 = 2;

/// Makes all comparisons of entries, on few pictures, and gives the first difference.
fn compare(tested: &Entries) -> Result<(), String> {
    pictures(tested, SEED, 200)?;
    limits(tested, SEED)?;
    misfits(tested, SEED)?;
    blocks(tested, SEED)?;
    rows(tested, SEED)?;
    row_masks(tested, SEED)?;
    transforms(tested, SEED, 200)?;
    headers(tested)?;
    changed_fields(tested, SEED)?;
    coefficients(tested)?;
    vectors(tested)?;
    encoded_vectors(tested, SEED, 200)?;
    changed_slices(tested, SEED)?;
    ended_slices(tested)?;
    stream_slices(tested, SEED)?;
    long_slices(tested, SEED)?;
    room_slices(tested, SEED)?;
    slices(tested, SEED, 6000)?;
    Ok(())
}

#[test]
fn the_decoder_is_itself() {
    assert_eq!(compare(&ENTRIES), Ok(()));
}

/// The wrong implementations that document 01's checklist names.
#[test]
fn wrong_panels_are_found() {
    let refuses_all: Reconstruct = |_, _, _, _| Answer {
        number: 3,
        place: 1,
        made: 0,
        rows: 0,
    };
    let grey: Reconstruct = |file, forward, backward, output| {
        let answer = (ENTRIES.reconstruct)(file, forward, backward, output);
        output.fill(128);
        answer
    };
    let writes_nothing: Reconstruct = |file, forward, backward, output| {
        (ENTRIES.reconstruct)(file, forward, backward, &mut output.to_vec())
    };
    let invents_made: Reconstruct = |file, forward, backward, output| Answer {
        made: 0,
        ..(ENTRIES.reconstruct)(file, forward, backward, output)
    };
    let invents_rows: Reconstruct = |file, forward, backward, output| Answer {
        rows: 0,
        ..(ENTRIES.reconstruct)(file, forward, backward, output)
    };
    let seven_at_the_start: Reconstruct = |file, forward, backward, output| {
        let answer = (ENTRIES.reconstruct)(file, forward, backward, output);
        let place = if answer.number == 7 { 1 } else { answer.place };
        Answer { place, ..answer }
    };
    let panels = [
        ("a panel that refuses all", refuses_all),
        ("one grey picture for all", grey),
        ("a panel that writes nothing", writes_nothing),
        ("an invented made", invents_made),
        ("invented rows", invents_rows),
        ("7 said at the start", seven_at_the_start),
    ];
    for (name, reconstruct) in panels {
        let wrong = Entries {
            reconstruct,
            ..ENTRIES
        };
        require_found(name, compare(&wrong));
    }
}

#[test]
fn wrong_entries_are_found() {
    let zeros = Entries {
        transform: |block| {
            let (_, transformed) = (ENTRIES.transform)(block);
            let residues = [0; 64];
            (
                0,
                Transformed {
                    residues,
                    ..transformed
                },
            )
        },
        ..ENTRIES
    };
    require_found("a transform of zeros", compare(&zeros));
    let limited_first = Entries {
        intra_coefficient: |level, scale, weight| {
            let (number, value) = (ENTRIES.intra_coefficient)(level, scale, weight);
            (number, value.max(-2047))
        },
        ..ENTRIES
    };
    require_found("limiting before the move to odd", compare(&limited_first));
    let one_rule = Entries {
        non_intra_coefficient: ENTRIES.intra_coefficient,
        ..ENTRIES
    };
    require_found("the intra rule for non-intra", compare(&one_rule));
    let doubled = Entries {
        vector: |f_code, past, code, residual| {
            let (number, vector) = (ENTRIES.vector)(f_code, past, code, residual);
            (number, 2 * vector)
        },
        ..ENTRIES
    };
    require_found("a doubled vector", compare(&doubled));
    let first_record = Entries {
        show_record: |file, _| (ENTRIES.show_record)(file, 1),
        ..ENTRIES
    };
    require_found("the first record for any offset", compare(&first_record));
    let starts_where_refused = Entries {
        show_record: |file, offset| {
            let (number, mut shown) = (ENTRIES.show_record)(file, offset);
            shown.start = if number == 0 { shown.start } else { offset };
            (number, shown)
        },
        ..ENTRIES
    };
    require_found(
        "a start where a record is refused",
        compare(&starts_where_refused),
    );
}

/// Readers of headers that break one rule each, found by the generated pictures and by the headers alone.
#[test]
fn wrong_readers_of_headers_are_found() {
    const NOTHING: FileStart = FileStart {
        picture_type: 0,
        width: 0,
        height: 0,
        records_start: 0,
    };
    let cut_is_the_end: ReadHeader = |file| match (ENTRIES.read_header)(file) {
        (7, _) => (3, NOTHING),
        read => read,
    };
    let length_before_turn: ReadHeader = |file| match (ENTRIES.read_header)(file) {
        (5, _) if file[2] != 8 => (6, NOTHING),
        read => read,
    };
    let fields_where_refused: ReadHeader = |file| match (ENTRIES.read_header)(file) {
        (8, _) => (
            8,
            FileStart {
                width: u32::from(file[4]),
                ..NOTHING
            },
        ),
        read => read,
    };
    let body_start: ReadHeader = |file| {
        let (number, start) = (ENTRIES.read_header)(file);
        let records_start = start.records_start.min(4);
        (
            number,
            FileStart {
                records_start,
                ..start
            },
        )
    };
    let turned: ReadHeader = |file| {
        let (number, start) = (ENTRIES.read_header)(file);
        let (width, height) = (start.height, start.width);
        (
            number,
            FileStart {
                width,
                height,
                ..start
            },
        )
    };
    let readers = [
        ("3 for a file that ends", cut_is_the_end),
        ("6 before 5", length_before_turn),
        ("a width of a refused header", fields_where_refused),
        ("a start at the header's body", body_start),
        ("width and height exchanged", turned),
    ];
    for (name, read_header) in readers {
        let wrong = Entries {
            read_header,
            ..ENTRIES
        };
        require_found(name, headers(&wrong));
        require_found(name, pictures(&wrong, SEED, 1000));
    }
}

/// Readers that break one rule each.
#[test]
fn wrong_readers_of_slices_are_found() {
    const REFUSED: SliceAnswer = SliceAnswer {
        number: 0,
        written: 0,
        byte: 0,
        bit: 0,
    };
    let refuses_all: ReadSlice = |_, _, _| SliceAnswer {
        number: 24,
        ..REFUSED
    };
    let writes_nothing: ReadSlice =
        |slice, given, buffer| (ENTRIES.read_slice)(slice, given, &mut buffer.to_vec());
    let writes_past: ReadSlice = |slice, given, buffer| {
        let answer = (ENTRIES.read_slice)(slice, given, buffer);
        buffer[answer.written..].fill(0);
        answer
    };
    let writes_where_refused: ReadSlice = |slice, given, buffer| {
        let answer = (ENTRIES.read_slice)(slice, given, buffer);
        if answer.number != 0 && !buffer.is_empty() {
            buffer[0] = 0;
        }
        answer
    };
    let short_buffer_first: ReadSlice = |slice, given, buffer| match buffer.len() {
        0 => SliceAnswer {
            number: 26,
            ..REFUSED
        },
        _ => (ENTRIES.read_slice)(slice, given, buffer),
    };
    let trusts_the_numbers: ReadSlice = |slice, mut given, buffer| {
        given.width = given.width.max(1);
        (ENTRIES.read_slice)(slice, given, buffer)
    };
    let looks_at_a_byte: ReadSlice = |slice, mut given, buffer| {
        given.height %= 256;
        (ENTRIES.read_slice)(slice, given, buffer)
    };
    let bits_from_the_right: ReadSlice = |slice, given, buffer| {
        let answer = (ENTRIES.read_slice)(slice, given, buffer);
        let bit = (8 - answer.bit) % 8;
        SliceAnswer { bit, ..answer }
    };
    let cut_is_no_code: ReadSlice = |slice, given, buffer| {
        let mut answer = (ENTRIES.read_slice)(slice, given, buffer);
        if answer.number == 25 && answer.byte + 1 == slice.len() && answer.bit == 1 {
            answer.number = 24;
        }
        answer
    };
    let readers = [
        ("a reader that refuses all", refuses_all),
        ("one that writes nothing", writes_nothing),
        ("one that writes past its records", writes_past),
        ("one that writes where it refuses", writes_where_refused),
        ("26 tested first", short_buffer_first),
        ("a width that is not tested", trusts_the_numbers),
        ("a height of which a byte is tested", looks_at_a_byte),
        ("bits counted from the right", bits_from_the_right),
        ("seven bits left as no code", cut_is_no_code),
    ];
    for (name, read_slice) in readers {
        let wrong = Entries {
            read_slice,
            ..ENTRIES
        };
        let compared = changed_slices(&wrong, SEED).and(slices(&wrong, SEED, 6000));
        require_found(name, compared);
    }
}

/// Reads a slice. If its records go past the room, `mistake` then gets the buffer as it was and the records.
fn read_past_room(
    slice: &[u8],
    given: Given,
    buffer: &mut [u8],
    mistake: fn(&[u8], &mut [u8]),
) -> SliceAnswer {
    let before = buffer.to_vec();
    let answer = (ENTRIES.read_slice)(slice, given, buffer);
    if answer.written > ROOM {
        mistake(&before, &mut buffer[..answer.written]);
    }
    answer
}

/// Where the last record that is whole in the room starts and ends.
fn last_whole(records: &[u8]) -> (usize, usize) {
    let ends = record_ends(records);
    let past = ends.iter().filter(|end| **end <= ROOM).count();
    (ends[past - 2], ends[past - 1])
}

/// Readers that are wrong only where records don't fit the room.
#[test]
fn wrong_readers_around_the_room_are_found() {
    let copies_the_room: ReadSlice = |slice, given, buffer| {
        read_past_room(slice, given, buffer, |before, records| {
            let length = records.len();
            records[ROOM..].copy_from_slice(&before[ROOM..length]);
        })
    };
    let drops_a_record_that_ends_the_room: ReadSlice = |slice, given, buffer| {
        read_past_room(slice, given, buffer, |before, records| {
            let (start, end) = last_whole(records);
            if end == ROOM {
                records[start..end].copy_from_slice(&before[start..end]);
            }
        })
    };
    let takes_a_byte_past_the_room: ReadSlice = |slice, given, buffer| {
        read_past_room(slice, given, buffer, |before, records| {
            if record_ends(records).contains(&(ROOM + 1)) {
                records[ROOM] = before[ROOM];
            }
        })
    };
    let splits_a_length: ReadSlice = |slice, given, buffer| {
        read_past_room(slice, given, buffer, |before, records| {
            if record_ends(records).contains(&(ROOM - 1)) {
                records[ROOM] = before[ROOM];
            }
        })
    };
    let goes_on_a_macroblock_early: ReadSlice = |slice, given, buffer| {
        read_past_room(slice, given, buffer, |_, records| {
            let (start, end) = last_whole(records);
            let length = records.len();
            records.copy_within(start..length - (end - start), end);
        })
    };
    let goes_on_a_macroblock_late: ReadSlice = |slice, given, buffer| {
        read_past_room(slice, given, buffer, |_, records| {
            let (_, end) = last_whole(records);
            let next = end + record_ends(&records[end..])[0];
            records.copy_within(next.., end);
        })
    };
    let wants_a_byte_more: ReadSlice = |slice, given, buffer| {
        let before = buffer.to_vec();
        let answer = (ENTRIES.read_slice)(slice, given, buffer);
        if answer.written <= ROOM || answer.written < buffer.len() {
            return answer;
        }
        buffer.copy_from_slice(&before);
        SliceAnswer {
            number: 26,
            written: 0,
            byte: 0,
            bit: 0,
        }
    };
    let writes_before_26: ReadSlice = |slice, given, buffer| {
        let answer = (ENTRIES.read_slice)(slice, given, buffer);
        if answer.number == 26 && buffer.len() >= ROOM {
            let mut records = vec![0; 1 << 20];
            (ENTRIES.read_slice)(slice, given, &mut records);
            buffer[..ROOM].copy_from_slice(&records[..ROOM]);
        }
        answer
    };
    let writes_before_a_late_refusal: ReadSlice = |slice, given, buffer| {
        let answer = (ENTRIES.read_slice)(slice, given, buffer);
        if [24, 25].contains(&answer.number) && answer.byte > 1000 {
            buffer[0] ^= 1;
        }
        answer
    };
    let readers = [
        ("one that copies only the room", copies_the_room),
        (
            "a record lost that ends the room",
            drops_a_record_that_ends_the_room,
        ),
        ("a byte lost past the room", takes_a_byte_past_the_room),
        ("a length split by the room's end", splits_a_length),
        ("going on a macroblock early", goes_on_a_macroblock_early),
        ("going on a macroblock late", goes_on_a_macroblock_late),
        ("26 for a buffer that just holds", wants_a_byte_more),
        ("the room copied before 26", writes_before_26),
        (
            "a byte written before a late refusal",
            writes_before_a_late_refusal,
        ),
    ];
    for (name, read_slice) in readers {
        let wrong = Entries {
            read_slice,
            ..ENTRIES
        };
        require_found(name, room_slices(&wrong, SEED));
    }
}
