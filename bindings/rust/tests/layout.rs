//! The structs of src/sys.rs lie as the Rattle source declares them, and those of the C header as these; the lengths of store and
//! output are the same in all three.
use std::collections::HashMap;
use std::fs;
use std::io::Write;
use std::mem::{align_of, offset_of, size_of};
use std::process::{Command, Stdio};

#[allow(dead_code)]
#[path = "../src/sys.rs"]
mod sys;

/// Where a struct's fields lie: name, offset and size of each.
#[derive(Debug, PartialEq)]
struct Layout {
    fields: Vec<(String, usize, usize)>,
    size: usize,
    align: usize,
}

/// The size of what a function gets at in a struct.
fn size_of_field<S, T>(_: impl Fn(&S) -> &T) -> usize {
    size_of::<T>()
}

/// The layouts of structs of src/sys.rs. The pattern does not compile unless it names every field.
macro_rules! layouts {
    ($($name:ident { $($field:ident),* })*) => {
        vec![$({
            let _ = |sys::$name { $($field: _),* }: sys::$name| ();
            let fields = vec![$((
                stringify!($field).to_string(),
                offset_of!(sys::$name, $field),
                size_of_field(|s: &sys::$name| &s.$field),
            )),*];
            (stringify!($name), Layout { fields, size: size_of::<sys::$name>(), align: align_of::<sys::$name>() })
        }),*]
    };
}

fn mirrored() -> Vec<(&'static str, Layout)> {
    layouts! {
        TdmaTime { t, f, m, h }
        TmaUnitdataReq {
            ssi, ssi_type, carrier_num, link_id, endpoint_id, req_handle, stealing_permission, has_mask, mask, receipt, block_len,
            block
        }
        FramePlace { place, len }
        Progress { ns, submitted_to_umac, has_umac_done, t_umac_done, retransmit_count }
        Entry { sent, frame, progress }
        ScheduledOutAck { ssi, ssi_type, carrier_num, nr, ts }
        ReceiptPlace { taken, expects_ack, state }
        LinkSendSeq { ssi, vs, has_last_ns, last_ns }
        State {
            started, main_carrier, t251, dltime, n_messages, n_udata, n_acks, n_rows, outbound_messages, outbound_udata_messages,
            scheduled_out_acks, receipts, link_send_seq
        }
        Answer { state, len, number }
    }
}

/// Size and alignment of a Rattle type, by the rules of C.
fn size_and_align(of: &str, structs: &HashMap<String, Layout>) -> (usize, usize) {
    if let Some(array) = of.strip_prefix('[') {
        let (element, count) = array.trim_end_matches(']').split_once("; ").expect("an array");
        let (size, align) = size_and_align(element, structs);
        return (size * count.parse::<usize>().expect("a length"), align);
    }
    match of {
        "bool" | "u8" => (1, 1),
        "u16" => (2, 2),
        "u32" => (4, 4),
        "usize" => (8, 8),
        _ => {
            let layout = structs.get(of).unwrap_or_else(|| panic!("{of} is no #[repr(C)] struct"));
            (layout.size, layout.align)
        }
    }
}

/// The layout of a struct whose fields stand in these lines of Rattle.
fn layout<'a>(lines: impl Iterator<Item = &'a str>, structs: &HashMap<String, Layout>) -> Layout {
    let (mut fields, mut end, mut most) = (Vec::new(), 0usize, 1);
    for line in lines
        .map(str::trim)
        .take_while(|line| *line != "}")
        .filter(|line| !line.starts_with("//"))
    {
        let (name, of) = line
            .strip_prefix("pub ")
            .unwrap()
            .trim_end_matches(',')
            .split_once(": ")
            .unwrap();
        let (size, align) = size_and_align(of, structs);
        let offset = end.next_multiple_of(align);
        fields.push((name.to_string(), offset, size));
        (end, most) = (offset + size, most.max(align));
    }
    Layout {
        fields,
        size: end.next_multiple_of(most),
        align: most,
    }
}

/// A file of the Rattle source.
fn rattle(name: &str) -> String {
    let path = format!("{}/../../crates/{name}", env!("CARGO_MANIFEST_DIR"));
    fs::read_to_string(&path).expect(&path)
}

/// A length that these lines of Rattle declare: a product of numbers and of other lengths.
fn length(name: &str, text: &str) -> usize {
    let head = format!("pub const {name}: usize = ");
    let value = text.lines().find_map(|line| line.strip_prefix(&head)).expect(name);
    let factor = |factor: &str| factor.replace('_', "").parse().unwrap_or_else(|_| length(factor, text));
    value.trim_end_matches(';').split(" * ").map(factor).product()
}

/// The lengths of store and output in the Rattle source.
fn lengths() -> [usize; 2] {
    let text = rattle("llc_state/src/lib.rt") + &rattle("llc/src/entry.rt");
    ["STORE", "OUTPUT"].map(|name| length(name, &text))
}

/// The layouts of the #[repr(C)] structs in the Rattle source.
fn declared() -> HashMap<String, Layout> {
    let mut structs = HashMap::new();
    for name in ["tdma_time", "llc_state", "llc_steps"] {
        let text = rattle(&format!("{name}/src/lib.rt"));
        let mut lines = text.lines();
        while lines.any(|line| line == "#[repr(C)]") {
            let head = lines.find(|line| !line.starts_with("#[")).unwrap();
            let name = head
                .strip_prefix("pub struct ")
                .and_then(|head| head.strip_suffix(" {"))
                .expect(head);
            let layout = layout(lines.by_ref(), &structs);
            structs.insert(name.to_string(), layout);
        }
    }
    structs
}

#[test]
fn the_structs_lie_as_rattle_declares_them() {
    let mut declared = declared();
    for (name, layout) in mirrored() {
        assert_eq!(declared.remove(name).as_ref(), Some(&layout), "{name}");
    }
    assert!(declared.is_empty(), "not mirrored: {declared:?}");
}

/// The C name of a struct: TdmaTime is wipturay_tdma_time.
fn c_name(name: &str) -> String {
    let words = name
        .chars()
        .flat_map(|c| c.is_uppercase().then_some('_').into_iter().chain(c.to_lowercase()));
    format!("struct wipturay{}", words.collect::<String>())
}

/// Asks gcc whether these have these values where the C header is included.
fn expect_in_c(values: &[(String, usize)]) {
    let mut text = "#include \"wipturay.h\"\n".to_string();
    for (what, value) in values {
        text += &format!("_Static_assert({what} == {value}, \"{what}\");\n");
    }
    let mut gcc = Command::new("gcc")
        .args(["-std=c11", "-Wall", "-Wextra", "-Werror", "-fsyntax-only", "-x", "c", "-"])
        .arg(concat!("-I", env!("CARGO_MANIFEST_DIR"), "/../c"))
        .stdin(Stdio::piped())
        .stderr(Stdio::piped())
        .spawn()
        .expect("gcc is needed");
    gcc.stdin.take().unwrap().write_all(text.as_bytes()).unwrap();
    let said = gcc.wait_with_output().unwrap();
    assert!(said.status.success(), "{}", String::from_utf8_lossy(&said.stderr));
}

#[test]
fn the_structs_of_the_c_header_lie_as_these() {
    let mut values = Vec::new();
    for (name, layout) in mirrored() {
        let name = c_name(name);
        values.push((format!("sizeof({name})"), layout.size));
        values.push((format!("_Alignof({name})"), layout.align));
        for (field, offset, size) in layout.fields {
            values.push((format!("offsetof({name}, {field})"), offset));
            values.push((format!("sizeof((({name} *)0)->{field})"), size));
        }
    }
    expect_in_c(&values);
}

#[test]
fn the_lengths_are_those_that_rattle_declares() {
    let [store, output] = lengths();
    assert_eq!([sys::STORE, sys::OUTPUT], [store, output]);
    expect_in_c(&[("WIPTURAY_STORE".into(), store), ("WIPTURAY_OUTPUT".into(), output)]);
}
