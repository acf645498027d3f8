//! What every record of a pair has alike, in the order of docs/LOAD.md.

use super::pool::{ABSENT, text};
use super::stream::{Field, Stream};

pub fn write(stream: &mut Stream) {
    constants(stream);
    aliases(stream);
    enums(stream);
    bit_field(stream);
    frame(stream);
    legacy(stream);
    for key in ["plate", "row"] {
        stream.byte(13);
        stream.text(text(key));
        stream.text(text("0.8.0"));
    }
}

fn constants(stream: &mut Stream) {
    stream.integer(text("PLUGIN_API"), 4, true, ABSENT);
    stream.byte(2);
    stream.text(text("VENDOR"));
    stream.byte(1);
    stream.value(0);
    stream.text(text("menqachu"));
    stream.byte(0);
    stream.text(ABSENT);
}

fn aliases(stream: &mut Stream) {
    for (name, underlying) in [("ticks", "u32"), ("well", "u16")] {
        stream.byte(3);
        stream.text(text(name));
        stream.text(text(underlying));
    }
}

fn enums(stream: &mut Stream) {
    let dated = text("0.8.0");
    let filter = [("dark", 0, ABSENT), ("dapi", 1, dated), ("fitc", 2, ABSENT)];
    let mode = [
        ("idle", 0, ABSENT),
        ("scan", 1, ABSENT),
        ("fault", -1, ABSENT),
    ];
    for (name, size, api, since, values) in [
        ("filter", 1, 1, dated, filter),
        ("mode", 2, 0, ABSENT, mode),
    ] {
        stream.byte(4);
        stream.text(text(name));
        stream.number(size);
        stream.byte(api);
        stream.text(since);
        for (name, value, since) in values {
            stream.byte(5);
            stream.text(text(name));
            stream.value(value);
            stream.text(since);
        }
    }
}

fn bit_field(stream: &mut Stream) {
    let dated = text("0.8.0");
    stream.byte(6);
    stream.text(text("flags"));
    stream.number(1);
    stream.text(dated);
    for (name, bit, width, since) in [("lamp", 0, None, ABSENT), ("zoom", 1, Some(3), dated)] {
        stream.byte(7);
        stream.text(text(name));
        stream.number(bit);
        stream.optional(width);
        stream.text(since);
    }
}

fn frame(stream: &mut Stream) {
    family(stream, ["frame", "tag", "mode", "len"], Some("u16"), false);
    stream.field(&Field::typed(text("seq"), "scalar", text("u16")));
    variant(stream, "A");
    stream.field(&Field::typed(text("gain"), "scalar", text("u8")));
    stream.field(&Field {
        size: Some(1),
        ..Field::new(text("gap"), "padding")
    });
    variant(stream, "B");
    stream.field(&Field {
        count: Some(3),
        ..Field::element(text("pos"), "inline_array", text("u16"))
    });
}

fn legacy(stream: &mut Stream) {
    family(stream, ["legacy", "sort", "filter", "size"], None, true);
    stream.field(&Field::typed(text("old"), "type_alias", text("ticks")));
    variant(stream, "C");
    stream.field(&Field::new(text("txt"), "string"));
}

fn family(stream: &mut Stream, texts: [&str; 4], length_type: Option<&str>, standalone: bool) {
    stream.byte(9);
    texts.iter().for_each(|word| stream.text(text(word)));
    stream.text(length_type.map_or(ABSENT, text));
    stream.byte(standalone.into());
}

fn variant(stream: &mut Stream, discriminant: &str) {
    stream.byte(10);
    stream.text(text(discriminant));
}
