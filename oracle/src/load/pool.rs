//! The pool of every record, and the places of its texts.

/// A text's start and length.
pub type Text = (u16, u8);

pub const ABSENT: Text = (0xFFFF, 0);

const STRUCTS: [&str; 8] = [
    "s00stage_origins",
    "s01optics_state_",
    "s02tile_table_hd",
    "s03plate_barcode",
    "s04lamp_schedule",
    "s05focus_profile",
    "s06camera_setup_",
    "s07run_statistic",
];

const FIELDS: [&str; 19] = [
    "f00exposure_time",
    "f01gain_setting_",
    "f02well_row_mark",
    "f03well_col_mark",
    "f04lens_position",
    "f05filter_select",
    "f06lamp_intensit",
    "f07encoder_ticks",
    "f08tile_checksum",
    "f09overlap_width",
    "f10stitch_offset",
    "f11operator_note",
    "f12serial_number",
    "f13firmware_hash",
    "f14temperature_c",
    "f15pressure_mbar",
    "f16humidity_perc",
    "f17spare_byte_in",
    "f18spare_byte_at",
];

pub const KINDS: [&str; 16] = [
    "scalar",
    "enum",
    "type_alias",
    "bitfield",
    "inline_array",
    "inline_array2d",
    "cstr_ptr",
    "struct_ptr",
    "struct_array_ptr",
    "struct_ptr_array_ptr",
    "tagged_fam_ptr",
    "simple_fam_ptr",
    "opaque_ptr",
    "fn_ptr",
    "padding",
    "string",
];

const WORDS: &str = "0.8.0 0.9.0 0.10.0 1.0.0 1.9.9 1.10.0 metadata runtime info GENERATION TILE_LIMIT \
    PLUGIN_API VENDOR menqachu ticks well filter dark dapi fitc mode idle scan fault flags lamp zoom frame tag \
    len seq A gain gap B pos legacy sort size old C txt plate row u8 u16 u32 char";

const NAME: usize = 16;
const KIND: usize = 20;

/// All bytes of the pool.
pub fn pool() -> Vec<u8> {
    let names = STRUCTS.concat() + &FIELDS.concat();
    let kinds: String = KINDS.iter().map(|kind| format!("{kind:.<KIND$}")).collect();
    let words: String = WORDS.split_whitespace().collect();
    (names + &kinds + &words).into_bytes()
}

/// The place of a word, or of a kind.
pub fn text(word: &str) -> Text {
    let names = (STRUCTS.len() + FIELDS.len()) * NAME;
    let length = word.len() as u8;
    if let Some(at) = KINDS.iter().position(|kind| *kind == word) {
        return ((names + at * KIND) as u16, length);
    }
    let before = WORDS.split_whitespace().take_while(|other| *other != word);
    let start = names + KINDS.len() * KIND + before.map(str::len).sum::<usize>();
    assert!(
        WORDS.split_whitespace().any(|other| other == word),
        "no such word: {word}"
    );
    (start as u16, length)
}

pub fn struct_name(lengths: usize, index: usize) -> Text {
    ((index * NAME) as u16, length(lengths, index))
}

pub fn field_name(lengths: usize, index: usize) -> Text {
    (
        ((STRUCTS.len() + index) * NAME) as u16,
        length(lengths, index),
    )
}

fn length(lengths: usize, index: usize) -> u8 {
    (3 + (lengths + index) % 14) as u8
}
