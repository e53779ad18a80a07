//! Every call over lent memory, with bytes that are worked out by hand from docs/RULES.md.

use muleflurry::{
    lent::{self, Action, Data, Message, Pair, Row},
    refusal_text, Answer, FrameType, Kind, Metadata, Refusal, Scope, Text, Value, AGREED_FRAME, MAX_FRAME,
};

const FILL: u8 = 0xaa;

fn refused(number: u64, place: usize) -> Refusal {
    Refusal { number, place }
}

/// The bytes of a frame with FIN alone and the ids 1 and 2, by its type and payload.
fn frame(kind: u8, payload: &[u8]) -> Vec<u8> {
    framed(&[&[kind, 0, 0, 0, 1, 1, 2], payload].concat())
}

fn framed(body: &[u8]) -> Vec<u8> {
    [&(body.len() as u32).to_be_bytes(), body].concat()
}

fn ids() -> Metadata {
    Metadata { stream_id: 1, frame_id: 2, ..Metadata::default() }
}

// ---------------------------------------------------------------- the numbers by name

#[test]
fn refusals_have_the_shared_texts() {
    let texts = [
        (Refusal::DONE, 0, "done"),
        (Refusal::WAIT, 1, "the frame is not whole yet"),
        (Refusal::OVERSIZE, 2, "the frame's length is over the limit"),
        (Refusal::TOO_SOON, 3, "the bytes end too soon"),
        (Refusal::UNKNOWN, 4, "the frame's type or flags are unknown"),
        (Refusal::ABORTED, 5, "the frame has ABORT set"),
        (Refusal::AGENTS, 6, "the frame is one that the other side sends"),
        (Refusal::TOO_LARGE, 7, "a number is over 64 bits"),
        (Refusal::NO_TYPE, 8, "a data type is none of 0 to 9"),
        (Refusal::MET_TWICE, 9, "a key is met twice"),
        (Refusal::TABLE_FULL, 10, "a table has no room for a record"),
        (Refusal::NO_ROOM, 11, "the output is too short"),
        (Refusal::OVER_LIMIT, 12, "the frame to be written is over the limit"),
        (Refusal::SIZE_TOO_SMALL, 13, "a frame size is under 256"),
        (Refusal::NOT_WRITABLE, 14, "a record or the frame's metadata is not writable"),
        (Refusal::NOT_TEXT, 15, "a text is not UTF-8"),
        (Refusal::OUTSIDE, 16, "a record points outside its buffer, or a count outside its table"),
        (Refusal::TOO_MANY, 17, "a message has more than 255 arguments"),
        (Refusal::UNKNOWN_ACTION, 18, "an action, its argument count or its scope is unknown"),
        (Refusal::NOT_FITTING, 19, "a number's tenth byte is above 15"),
    ];
    for (named, number, text) in texts {
        assert_eq!((named, refusal_text(number)), (number, text));
    }
    for number in [20, 21, u64::MAX] {
        assert_eq!(refusal_text(number), "no such number");
    }
}

#[test]
fn refusals_are_errors_that_say_number_and_place() {
    let error: Box<dyn std::error::Error> = refused(8, 14).into();
    assert_eq!(error.to_string(), "refused: 8 at 14: a data type is none of 0 to 9");
    let error: Box<dyn std::error::Error> = Answer::Wait { missing: 3 }.into();
    assert_eq!(error.to_string(), "not whole: bytes missing: 3");
    assert_eq!(Answer::from(refused(2, 4)).to_string(), "refused: 2 at 4: the frame's length is over the limit");
}

#[test]
fn names_stand_for_the_protocols_numbers() {
    use {FrameType as F, Kind as K, Scope as S};
    let kinds = [K::Null, K::Bool, K::I32, K::U32, K::I64, K::U64, K::Ipv4, K::Ipv6, K::String, K::Binary];
    let scopes = [S::Process, S::Session, S::Transaction, S::Request, S::Response];
    for (number, kind) in kinds.into_iter().enumerate() {
        assert_eq!((kind.number(), Kind::from_number(number as u64)), (number as u64, Some(kind)));
    }
    for (number, scope) in scopes.into_iter().enumerate() {
        assert_eq!((scope.number(), Scope::from_number(number as u64)), (number as u64, Some(scope)));
    }
    let types = [
        (1, F::HaproxyHello),
        (2, F::HaproxyDisconnect),
        (3, F::Notify),
        (101, F::AgentHello),
        (102, F::AgentDisconnect),
        (103, F::Ack),
    ];
    for (number, kind) in types {
        assert_eq!((kind.number(), FrameType::from_number(number)), (number, Some(kind)));
    }
    assert_eq!((Kind::from_number(10), Scope::from_number(5), FrameType::from_number(4)), (None, None, None));
    assert_eq!((muleflurry::FIN, muleflurry::ABORT, MAX_FRAME, AGREED_FRAME), (1, 2, 1_048_576, 16_384));
}

// ---------------------------------------------------------------- numbers and texts

#[test]
fn numbers_have_their_written_form() {
    let forms: [(u64, &[u8]); 8] = [
        (0, &[0]),
        (239, &[0xef]),
        (240, &[0xf0, 0x00]),
        (2287, &[0xff, 0x7f]),
        (2288, &[0xf0, 0x80, 0x00]),
        // (16384 - 240) / 16 = 1009, which is 128 + 113 and then (1009 - 128) / 128 = 6
        (16_384, &[0xf0, 0xf1, 0x06]),
        (264_431, &[0xff, 0xff, 0x7f]),
        (u64::MAX, &[0xff, 0xf0, 0xfe, 0xfe, 0xfe, 0xfe, 0xfe, 0xfe, 0xfe, 0x0e]),
    ];
    for (n, form) in forms {
        let mut out = [FILL; 12];
        assert_eq!(lent::varint_len(n), form.len());
        assert_eq!(lent::encode_varint(n, &mut out), Ok(form.len()));
        assert_eq!(out[..form.len()], *form);
        assert!(out[form.len()..].iter().all(|byte| *byte == FILL));
        assert_eq!(lent::decode_varint(&out), Ok((n, form.len())));
    }
}

#[test]
fn numbers_are_refused() {
    let mut out = [FILL; 2];
    assert_eq!(lent::encode_varint(2288, &mut out), Err(refused(Refusal::NO_ROOM, 0)));
    assert_eq!(out, [FILL; 2]);
    assert_eq!(lent::encode_varint(0, &mut []), Err(refused(Refusal::NO_ROOM, 0)));
    let tenth = |last: u8| [&[0xf0][..], &[0x80; 8], &[last]].concat();
    assert_eq!(lent::decode_varint(&[]), Err(refused(Refusal::TOO_SOON, 0)));
    assert_eq!(lent::decode_varint(&[0xf0, 0x80]), Err(refused(Refusal::TOO_SOON, 2)));
    assert_eq!(lent::decode_varint(&tenth(0x0f)), Err(refused(Refusal::TOO_LARGE, 10)));
    assert_eq!(lent::decode_varint(&tenth(0x10)), Err(refused(Refusal::NOT_FITTING, 10)));
}

#[test]
fn texts_are_told_and_made_lossy() {
    assert!(lent::is_utf8(b"") && lent::is_utf8("delay €".as_bytes()));
    assert!(!lent::is_utf8(b"\xff") && !lent::is_utf8(b"\xed\xa0\x80"));
    assert!(lent::same_text(b"A\xff", b"A\xfe") && !lent::same_text(b"A", b"B"));
    assert!(lent::same_text(b"", b""));
    for (a, b) in [(&b"A\xff"[..], &b"A\xfe"[..]), (b"A", b"B"), (b"", b""), (b"slot", b"slots")] {
        let (mut a_text, mut b_text) = ([FILL; 16], [FILL; 16]);
        assert_eq!(lent::same_text_plain(a, b, &mut a_text, &mut b_text), Ok(lent::same_text(a, b)));
        for (bytes, text) in [(a, a_text), (b, b_text)] {
            let written = Text(bytes).to_string();
            assert!(text.starts_with(written.as_bytes()) && text[written.len()..].iter().all(|byte| *byte == FILL));
        }
    }
    for (a_room, b_room) in [(3, 16), (16, 3)] {
        let (mut a_text, mut b_text) = ([FILL; 16], [FILL; 16]);
        let refusal = lent::same_text_plain(b"A\xff", b"A\xfe", &mut a_text[..a_room], &mut b_text[..b_room]);
        assert_eq!((refusal, a_text, b_text), (Err(refused(Refusal::NO_ROOM, 0)), [FILL; 16], [FILL; 16]));
    }
    let lossy: [(&[u8], &str); 4] =
        [(b"slot", "slot"), (b"a\xe2\x82b", "a\u{fffd}b"), (b"\xed\xa0\x80", "\u{fffd}\u{fffd}\u{fffd}"), (b"", "")];
    for (bytes, text) in lossy {
        let mut out = [FILL; 12];
        assert_eq!(lent::lossy_text(bytes, &mut out), Ok(text.len()));
        assert_eq!(out[..text.len()], *text.as_bytes());
        assert!(out[text.len()..].iter().all(|byte| *byte == FILL));
        assert_eq!(Text(bytes).to_string(), text);
    }
    let mut out = [FILL; 2];
    assert_eq!(lent::lossy_text(b"\xff", &mut out), Err(refused(Refusal::NO_ROOM, 0)));
    assert_eq!(out, [FILL; 2]);
}

#[test]
fn a_text_keeps_its_bytes() {
    let text = Text(&b"a\xff"[..]);
    assert_eq!((text.as_bytes(), text.as_str().is_err()), (&b"a\xff"[..], true));
    assert_eq!(format!("{text:?}"), r#""a\xff""#);
    assert!(text != "a\u{fffd}" && Text(&b"slot"[..]) == "slot");
    assert_eq!(Text(&b"slot"[..]).as_str(), Ok("slot"));
}

// ---------------------------------------------------------------- values

/// A value's bytes, what they stand for, and how that is shown.
type Written = (Vec<u8>, Value<&'static [u8]>, &'static str);

/// Each kind of value.
fn values() -> Vec<Written> {
    let ipv6 = [0x20, 0x01, 0x0d, 0xb8, 0, 0, 0, 0, 0, 0, 0, 0, 0, 0, 0, 1];
    vec![
        (vec![0x00], Value::Null, "null"),
        (vec![0x01], Value::Bool(false), "false"),
        (vec![0x11], Value::Bool(true), "true"),
        (vec![0x02, 0x07], Value::I32(7), "7"),
        // -1 in 64 bits is the largest number
        (vec![0x02, 0xff, 0xf0, 0xfe, 0xfe, 0xfe, 0xfe, 0xfe, 0xfe, 0xfe, 0x0e], Value::I32(-1), "-1"),
        (vec![0x03, 0xef], Value::U32(239), "239"),
        (vec![0x04, 0xf2, 0x3f], Value::I64(1250), "1250"),
        (vec![0x04, 0xf6, 0xc3, 0xfe, 0xfe, 0xfe, 0xfe, 0xfe, 0xfe, 0xfe, 0x0e], Value::I64(-730), "-730"),
        (vec![0x05, 0xff, 0xf0, 0xfe, 0xfe, 0xfe, 0xfe, 0xfe, 0xfe, 0xfe, 0x0e], Value::U64(u64::MAX), "18446744073709551615"),
        (vec![0x06, 192, 0, 2, 1], Value::Ipv4([192, 0, 2, 1].into()), "192.0.2.1"),
        ([&[0x07][..], &ipv6].concat(), Value::Ipv6(ipv6.into()), "2001:db8::1"),
        (b"\x08\x03a\xffb".to_vec(), Value::String(Text(b"a\xffb")), "a\u{fffd}b"),
        (b"\x08\x00".to_vec(), Value::String(Text(b"")), ""),
        (b"\x09\x03\x00\xab\xff".to_vec(), Value::Binary(b"\x00\xab\xff"), "00abff"),
    ]
}

#[test]
fn values_are_read_and_written() {
    for (bytes, value, shown) in values() {
        let input = [&bytes[..], b"more"].concat();
        let (data, used) = lent::typed_data(&input).unwrap();
        assert_eq!((data.value(&input), used), (Some(value), bytes.len()));
        assert_eq!((data.flags, data.kind, value.to_string().as_str()), (0, value.kind().number(), shown));
        assert_eq!(lent::value_len(data, &input), bytes.len());
        let mut out = [FILL; 20];
        assert_eq!(lent::write_value(data, &input, &mut out), Ok(bytes.len()));
        assert_eq!(out[..bytes.len()], bytes);
        assert!(out[bytes.len()..].iter().all(|byte| *byte == FILL));
        let text = if shown.contains('\u{fffd}') { Err(refused(Refusal::NOT_TEXT, 0)) } else { Ok(()) };
        assert_eq!(lent::check_value(data, &input), text);
    }
}

#[test]
fn data_is_made_as_it_is_read() {
    let made = [
        Data::null(),
        Data::bool(false),
        Data::bool(true),
        Data::i32(7),
        Data::i32(-1),
        Data::u32(239),
        Data::i64(1250),
        Data::i64(-730),
        Data::u64(u64::MAX),
        Data::ipv4(1),
        Data::ipv6(1),
        Data::string(2..5),
        Data::string(2..2),
        Data::binary(2..5),
    ];
    for ((bytes, ..), data) in values().into_iter().zip(made) {
        assert_eq!(lent::typed_data(&bytes).map(|(data, _)| data), Ok(data));
    }
}

#[test]
fn flags_are_kept_but_those_of_a_bool() {
    let (data, used) = lent::typed_data(&[0x23, 0x07]).unwrap();
    assert_eq!((data, used), (Data::u32(7).with_flags(2), 2));
    let mut out = [FILL; 2];
    assert_eq!(lent::write_value(data, &[], &mut out), Ok(2));
    assert_eq!(out, [0x23, 0x07]);
    assert_eq!(lent::typed_data(&[0xf1]), Ok((Data::bool(true), 1)));
    assert_eq!(lent::typed_data(&[0xf0]), Ok((Data::null().with_flags(15), 1)));
}

#[test]
fn values_are_refused_when_read() {
    let refusals: [(&[u8], u64, usize); 7] = [
        (b"", Refusal::TOO_SOON, 0),
        (b"\x0a", Refusal::NO_TYPE, 1),
        (b"\x1f", Refusal::NO_TYPE, 1),
        (b"\x06\x01\x02\x03", Refusal::TOO_SOON, 1),
        (b"\x08\x05abcd", Refusal::TOO_SOON, 2),
        (b"\x05\xf0\x80\x80\x80\x80\x80\x80\x80\x80\x0f", Refusal::TOO_LARGE, 11),
        (b"\x09\xf0\x80\x80\x80\x80\x80\x80\x80\x80\x10", Refusal::NOT_FITTING, 11),
    ];
    for (input, number, place) in refusals {
        assert_eq!(lent::typed_data(input), Err(refused(number, place)), "{input:02x?}");
    }
}

#[test]
fn values_are_refused_when_written() {
    let buffer = b"a\xff";
    let wrong = [
        (Data { a: 1 << 32, ..Data::u32(0) }, Refusal::NOT_WRITABLE),
        (Data { a: 1 << 31, ..Data::i32(0) }, Refusal::NOT_WRITABLE),
        (Data { a: 2, ..Data::bool(true) }, Refusal::NOT_WRITABLE),
        (Data { a: 1, ..Data::null() }, Refusal::NOT_WRITABLE),
        (Data { b: 1, ..Data::i64(0) }, Refusal::NOT_WRITABLE),
        (Data { b: 3, ..Data::ipv4(0) }, Refusal::NOT_WRITABLE),
        (Data { kind: 10, ..Data::null() }, Refusal::NOT_WRITABLE),
        (Data::null().with_flags(16), Refusal::NOT_WRITABLE),
        (Data::bool(true).with_flags(1), Refusal::NOT_WRITABLE),
        (Data::string(0..3), Refusal::OUTSIDE),
        (Data { a: u64::MAX, b: 1, ..Data::binary(0..0) }, Refusal::OUTSIDE),
        (Data::ipv4(0), Refusal::OUTSIDE),
    ];
    for (data, number) in wrong {
        let mut out = [FILL; 20];
        assert_eq!(lent::check_value(data, buffer), Err(refused(number, 0)), "{data:?}");
        assert_eq!(lent::write_value(data, buffer, &mut out), Err(refused(number, 0)), "{data:?}");
        assert_eq!((out, lent::value_len(data, buffer), data.value(buffer)), ([FILL; 20], 0, None), "{data:?}");
    }
    let mut out = [FILL; 2];
    assert_eq!(lent::check_value(Data::string(0..2), buffer), Err(refused(Refusal::NOT_TEXT, 0)));
    assert_eq!(lent::check_value(Data::binary(0..2), buffer), Ok(()));
    assert_eq!(lent::write_value(Data::binary(0..2), buffer, &mut out), Err(refused(Refusal::NO_ROOM, 0)));
    assert_eq!(out, [FILL; 2]);
}

#[test]
fn a_range_that_ends_before_its_start_is_empty() {
    let (start, end) = (5, 2);
    assert_eq!(Data::string(start..end), Data { kind: 8, a: 5, b: 0, flags: 0 });
    assert_eq!(Pair::new(start..end, Data::null()).key_len, 0);
}

// ---------------------------------------------------------------- pairs and tables

#[test]
fn pairs_are_read() {
    let input = b"\x04slot\x23\x11behind";
    let (pair, used) = lent::read_pair(input).unwrap();
    assert_eq!(used, 7);
    assert_eq!(pair, Pair { key_start: 1, key_len: 4, kind: 3, a: 17, b: 0, flags: 2 });
    assert_eq!(pair, Pair::new(1..5, Data::u32(17).with_flags(2)));
    let argument = pair.argument(input).unwrap();
    assert_eq!((argument.key, argument.value, argument.flags), (Text(&b"slot"[..]), Value::U32(17), 2));
    assert_eq!(pair.argument(&input[..4]), None);
    assert_eq!(lent::read_pair(b"\x05slot"), Err(refused(Refusal::TOO_SOON, 1)));
    assert_eq!(lent::read_pair(b"\x04slot"), Err(refused(Refusal::TOO_SOON, 5)));
    assert_eq!(lent::read_pair(b"\x04slot\x0b"), Err(refused(Refusal::NO_TYPE, 6)));
}

#[test]
fn records_are_their_numbers_in_a_row() {
    let mut numbers: Vec<u64> = (0..20).collect();
    let pairs = [
        Pair::of_numbers([0, 1, 2, 3, 4, 5]),
        Pair::of_numbers([6, 7, 8, 9, 10, 11]),
        Pair::of_numbers([12, 13, 14, 15, 16, 17]),
    ];
    assert_eq!(Pair::table(&numbers), pairs);
    assert_eq!(Pair::numbers(&pairs), &numbers[..18]);
    assert_eq!(pairs[1].b, 10);
    let messages = Message::table(&numbers);
    assert_eq!((messages.len(), messages[4]), (5, Message::new(16..33, 18..37)));
    let action = Action { action: 8, scope: 9, name_start: 10, name_len: 11, kind: 12, a: 13, b: 14, flags: 15 };
    assert_eq!((Action::table(&numbers).len(), Action::table(&numbers)[1]), (2, action));
    Action::table_mut(&mut numbers)[1].scope = 99;
    assert_eq!(numbers[9], 99);
    Pair::numbers_mut(Pair::table_mut(&mut numbers))[17] = 98;
    assert_eq!((numbers[17], numbers[18]), (98, 18));
    assert!(Pair::table(&numbers[..5]).is_empty() && Message::numbers(&[]).is_empty());
}

// ---------------------------------------------------------------- frames, read

type Reader = for<'a> fn(&'a [u8], u32, &'a mut [Message], &'a mut [Pair]) -> Result<lent::Frame<'a>, Answer>;

const READERS: [Reader; 2] = [lent::read_frame, lent::read_frame_records];

const UNTOUCHED: Message = Message { name_start: 91, name_len: 92, first_pair: 93, pair_count: 94 };
const UNTOUCHED_PAIR: Pair = Pair { key_start: 81, key_len: 82, kind: 83, a: 84, b: 85, flags: 86 };

#[test]
fn a_notify_is_read_in_order() {
    let input = frame(3, b"\x01m\x03\x04slot\x03\x11\x00\x24\x05\x04slot\x11\x00\x00\x01m\x01\x01z\x00");
    let input = [&input[..], b"behind"].concat();
    for read in READERS {
        let (mut messages, mut pairs) = ([UNTOUCHED; 4], [UNTOUCHED_PAIR; 5]);
        let frame = read(&input, AGREED_FRAME, &mut messages, &mut pairs).unwrap();
        assert_eq!((frame.kind(), frame.metadata(), frame.used()), (FrameType::Notify, ids(), input.len() - 6));
        assert_eq!(frame.bytes(), &input[..input.len() - 6]);
        let shown: Vec<_> = frame
            .messages()
            .map(|(name, arguments)| {
                (name.to_string(), arguments.map(|one| (one.key.to_string(), one.value, one.flags)).collect::<Vec<_>>())
            })
            .collect();
        let slot = "slot".to_string();
        let expected = vec![
            (
                "m".to_string(),
                vec![(slot.clone(), Value::U32(17), 0), (String::new(), Value::I64(5), 2), (slot, Value::Bool(true), 0)],
            ),
            (String::new(), vec![]),
            ("m".to_string(), vec![("z".to_string(), Value::Null, 0)]),
        ];
        assert_eq!(shown, expected);
        assert_eq!((frame.messages().len(), frame.pairs().len()), (3, 4));
        assert_eq!(frame.pairs().map(|one| one.key.0.len()).collect::<Vec<_>>(), [4, 0, 4, 1]);
        // Starts count from the first length byte. Eleven bytes are in front of the payload, and the first message has nineteen.
        assert_eq!(frame.message_records()[1..], [Message::new(31..31, 3..3), Message::new(33..34, 3..4)]);
        assert_eq!(frame.pair_records()[0], Pair::new(15..19, Data::u32(17)));
        assert_eq!((messages[3], pairs[4]), (UNTOUCHED, UNTOUCHED_PAIR));
    }
}

/// A hello of a pair, a NOTIFY of two messages, one without any, and a disconnect without a pair.
fn buffer() -> Vec<u8> {
    [frame(1, b"\x01k\x00"), frame(3, b"\x01m\x02\x01a\x03\x07\x01b\x11\x01n\x00"), frame(3, b""), frame(2, b"")].concat()
}

#[test]
fn a_buffer_is_read_in_order() {
    let input = [buffer(), vec![0; 3]].concat();
    let (mut rows, mut messages, mut pairs) = ([Row::default(); 5], [Message::default(); 3], [Pair::default(); 4]);
    let read = lent::read_frames(&input, 20, &mut rows, &mut messages, &mut pairs);
    assert_eq!((read.used(), read.rest(), read.stopped()), (60, &[0; 3][..], Answer::Wait { missing: 1 }));
    let row = |start, used, kind, first, count| Row { start, used, kind, stream_id: 1, frame_id: 2, first, count };
    assert_eq!(read.rows(), [row(0, 14, 1, 0, 1), row(14, 24, 3, 0, 2), row(38, 11, 3, 2, 0), row(49, 11, 2, 3, 0)]);
    assert_eq!(read.message_records(), [Message::new(12..13, 0..2), Message::new(22..23, 2..2)]);
    assert_eq!((read.pair_records().len(), read.frames().len()), (3, 4));
    let mut rest = &input[..];
    for frame in read.frames() {
        let (mut messages, mut pairs) = ([Message::default(); 2], [Pair::default(); 2]);
        let alone = lent::read_frame(rest, 20, &mut messages, &mut pairs).unwrap();
        assert_eq!((frame.kind(), frame.metadata(), frame.bytes()), (alone.kind(), alone.metadata(), alone.bytes()));
        assert_eq!((frame.message_records(), frame.pair_records()), (alone.message_records(), alone.pair_records()));
        rest = &rest[frame.used()..];
    }
    let names: Vec<_> =
        read.frames().flat_map(|frame| frame.messages()).map(|(name, arguments)| (name, arguments.len())).collect();
    assert_eq!(names, [(Text(&b"m"[..]), 2), (Text(&b"n"[..]), 0)]);
}

#[test]
fn a_buffer_stops_where_there_is_no_room_or_a_frame_is_refused() {
    let full = |place| Answer::Refused(refused(Refusal::TABLE_FULL, place));
    let read = |input: &[u8], rooms: [usize; 3]| {
        let (mut rows, mut messages, mut pairs) = ([Row::default(); 4], [Message::default(); 2], [Pair::default(); 3]);
        let tables = (&mut rows[..rooms[0]], &mut messages[..rooms[1]], &mut pairs[..rooms[2]]);
        let read = lent::read_frames(input, 20, tables.0, tables.1, tables.2);
        let left = (read.frames().len(), read.used(), read.stopped());
        let (frames, of_messages, of_pairs) = (left.0, read.message_records().len(), read.pair_records().len());
        assert!(rows[frames..].iter().all(|row| *row == Row::default()));
        assert!(messages[of_messages..].iter().all(|message| *message == Message::default()));
        assert!(pairs[of_pairs..].iter().all(|pair| *pair == Pair::default()));
        left
    };
    let mut input = buffer();
    assert_eq!(read(&input, [4, 2, 3]), (4, 60, Answer::Wait { missing: 4 }));
    assert_eq!(read(&input, [3, 2, 3]), (3, 49, full(11)));
    assert_eq!(read(&input, [0, 2, 3]), (0, 0, full(14)));
    assert_eq!(read(&input, [4, 1, 3]), (1, 14, full(24)));
    assert_eq!(read(&input, [4, 2, 2]), (1, 14, full(21)));
    assert_eq!(read(&input[..59], [3, 2, 3]), (3, 49, Answer::Wait { missing: 1 }));
    assert_eq!(read(&[], [0, 0, 0]), (0, 0, Answer::Wait { missing: 4 }));
    input[53] = 4;
    assert_eq!(read(&input, [3, 2, 3]), (3, 49, Answer::Refused(refused(Refusal::UNKNOWN, 4))));
}

#[test]
fn a_kv_list_is_read_in_order() {
    let input = frame(1, b"\x01b\x08\x032.0\x01a\x03\x07");
    for read in READERS {
        let (mut messages, mut pairs) = ([], [UNTOUCHED_PAIR; 2]);
        let frame = read(&input, AGREED_FRAME, &mut messages, &mut pairs).unwrap();
        assert_eq!((frame.kind(), frame.messages().len()), (FrameType::HaproxyHello, 0));
        let shown: Vec<_> = frame.pairs().map(|one| format!("{} {}", one.key, one.value)).collect();
        assert_eq!(shown, ["b 2.0", "a 7"]);
    }
    let (mut messages, mut pairs) = ([], []);
    let empty = frame(2, b"");
    let frame = lent::read_frame(&empty, 7, &mut messages, &mut pairs).unwrap();
    assert_eq!((frame.kind(), frame.used(), frame.pairs().len()), (FrameType::HaproxyDisconnect, 11, 0));
}

#[test]
fn frames_are_refused_and_nothing_changes() {
    let number = |last: u8| [&[0xf0][..], &[0x80; 8], &[last]].concat();
    let body = |kind: u8, flags: u8| framed(&[kind, 0, 0, 0, flags, 1, 2]);
    let refusals: Vec<(Vec<u8>, u64, usize)> = vec![
        (framed(&[0; 21]), Refusal::OVERSIZE, 4),
        (vec![0, 0x10, 0, 1], Refusal::OVERSIZE, 4),
        (framed(b""), Refusal::TOO_SOON, 4),
        (framed(b"\x03\0\0\0"), Refusal::TOO_SOON, 5),
        (framed(b"\x03\0\0\0\x01\x01"), Refusal::TOO_SOON, 10),
        (body(4, 1), Refusal::UNKNOWN, 4),
        (body(3, 0), Refusal::UNKNOWN, 4),
        (body(3, 5), Refusal::UNKNOWN, 4),
        (body(3, 3), Refusal::ABORTED, 4),
        (body(103, 1), Refusal::AGENTS, 4),
        (framed(&[&[3, 0, 0, 0, 1][..], &number(0x0f)].concat()), Refusal::TOO_LARGE, 19),
        (framed(&[&[3, 0, 0, 0, 1][..], &number(0x10)].concat()), Refusal::NOT_FITTING, 19),
        (frame(1, b"\x01A\x0a"), Refusal::NO_TYPE, 14),
        (frame(1, b"\x02A\xff\x00\x02A\xfe\x00"), Refusal::MET_TWICE, 19),
        (frame(1, b"\x00\x00\x01A\x00"), Refusal::TABLE_FULL, 16),
        (frame(3, b"\x01m\x02\x00\x00\x00\x00"), Refusal::TABLE_FULL, 18),
        (frame(3, b"\x01m\x00\x01n\x00"), Refusal::TABLE_FULL, 17),
        (frame(3, b"\x01m"), Refusal::TOO_SOON, 13),
        (frame(3, b"\x01m\x01"), Refusal::TOO_SOON, 14),
    ];
    for (input, number, place) in refusals {
        for read in READERS {
            let (mut messages, mut pairs) = ([UNTOUCHED; 1], [UNTOUCHED_PAIR; 1]);
            let answer = read(&input, 20, &mut messages, &mut pairs).unwrap_err();
            assert_eq!(answer, Answer::Refused(refused(number, place)), "{input:02x?}");
            assert_eq!((messages, pairs), ([UNTOUCHED], [UNTOUCHED_PAIR]));
        }
    }
}

#[test]
fn a_frame_that_is_cut_is_waited_for() {
    let input = frame(3, b"\x01m\x01\x01a\x00");
    for length in 0..input.len() {
        let missing = if length < 4 { 4 - length } else { input.len() - length };
        for read in READERS {
            let (mut messages, mut pairs) = ([UNTOUCHED; 1], [UNTOUCHED_PAIR; 1]);
            let answer = read(&input[..length], AGREED_FRAME, &mut messages, &mut pairs).unwrap_err();
            assert_eq!(answer, Answer::Wait { missing });
            assert_eq!((messages, pairs), ([UNTOUCHED], [UNTOUCHED_PAIR]));
        }
    }
}

// ---------------------------------------------------------------- frames, written

#[test]
fn an_agent_hello_is_written() {
    let buffer = b"versionmax-frame-sizecapabilities2.0";
    let pairs =
        [Pair::new(0..7, Data::string(33..36)), Pair::new(7..21, Data::u32(16_380)), Pair::new(21..33, Data::string(0..0))];
    let expected = b"\0\0\0\x36\x65\0\0\0\x01\0\0\x07version\x08\x032.0\x0emax-frame-size\x03\xfc\xf0\x06\x0ccapabilities\x08\0";
    let mut out = [FILL; 64];
    let metadata = Metadata::default();
    let length = lent::write_kv(FrameType::AgentHello, metadata, 54, buffer, &pairs, &mut out);
    assert_eq!(length, Ok(58));
    assert_eq!(out[..58], *expected);
    assert_eq!(out[58..], [FILL; 6]);

    let write = |kind, metadata, limit, out: &mut [u8]| lent::write_kv(kind, metadata, limit, buffer, &pairs, out);
    let mut out = [FILL; 58];
    assert_eq!(write(FrameType::AgentHello, metadata, 53, &mut out), Err(refused(Refusal::OVER_LIMIT, 0)));
    assert_eq!(write(FrameType::AgentHello, metadata, 54, &mut out[..57]), Err(refused(Refusal::NO_ROOM, 0)));
    assert_eq!(write(FrameType::AgentHello, ids(), 54, &mut out), Err(refused(Refusal::NOT_WRITABLE, 0)));
    assert_eq!(write(FrameType::Notify, metadata, 54, &mut out), Err(refused(Refusal::NOT_WRITABLE, 0)));
    assert_eq!(out, [FILL; 58]);
}

#[test]
fn kv_frames_of_haproxy_have_any_metadata() {
    let metadata = Metadata { fin: false, abort: true, stream_id: 240, frame_id: 2 };
    let mut out = [FILL; 16];
    let length = lent::write_kv(FrameType::HaproxyDisconnect, metadata, 100, b"a", &[Pair::new(0..1, Data::null())], &mut out);
    assert_eq!(length, Ok(15));
    assert_eq!(out[..15], *b"\0\0\0\x0b\x02\0\0\0\x02\xf0\0\x02\x01a\0");
}

#[test]
fn records_that_are_wrong_are_refused_at_their_index() {
    let buffer = b"ab\xff";
    let right = Pair::new(0..1, Data::null());
    let wrong = [
        (Pair::new(0..1, Data::null()), Refusal::MET_TWICE),
        (Pair::new(1..4, Data::null()), Refusal::OUTSIDE),
        (Pair::new(2..3, Data::null()), Refusal::NOT_TEXT),
        (Pair::new(1..2, Data::string(1..3)), Refusal::NOT_TEXT),
        (Pair::new(1..2, Data::binary(1..4)), Refusal::OUTSIDE),
        (Pair::new(1..2, Data::null().with_flags(16)), Refusal::NOT_WRITABLE),
    ];
    for (pair, number) in wrong {
        let mut out = [FILL; 40];
        let answer = lent::write_kv(FrameType::HaproxyHello, ids(), 100, buffer, &[right, pair], &mut out);
        assert_eq!(answer, Err(refused(number, 1)), "{pair:?}");
        assert_eq!(out, [FILL; 40]);
    }
}

#[test]
fn an_ack_is_written() {
    let buffer = b"slot_aslot_bx\xff";
    let actions = [
        Action::set_var(Scope::Transaction, 0..6, Data::u32(7)),
        Action::unset_var(Scope::Response, 12..13),
        Action::set_var(Scope::Process, 6..12, Data::u32(300).with_flags(1)),
    ];
    let expected =
        b"\0\0\0\x25\x67\0\0\0\x01\x01\x02\x01\x03\x02\x06slot_a\x03\x07\x02\x02\x04\x01x\x01\x03\x00\x06slot_b\x13\xfc\x03";
    let mut out = [FILL; 48];
    assert_eq!(lent::write_actions(ids(), AGREED_FRAME, buffer, &actions, &mut out), Ok(41));
    assert_eq!(out[..41], *expected);
    assert_eq!(out[41..], [FILL; 7]);

    let wrong = [
        (Action { scope: 5, ..actions[0] }, Refusal::NOT_WRITABLE),
        (Action { action: 3, ..actions[0] }, Refusal::NOT_WRITABLE),
        (Action { kind: 3, ..actions[1] }, Refusal::NOT_WRITABLE),
        (Action::unset_var(Scope::Session, 13..14), Refusal::NOT_TEXT),
        (Action::unset_var(Scope::Session, 13..15), Refusal::OUTSIDE),
    ];
    for (action, number) in wrong {
        let mut out = [FILL; 40];
        let answer = lent::write_actions(ids(), AGREED_FRAME, buffer, &[actions[0], action], &mut out);
        assert_eq!(answer, Err(refused(number, 1)), "{action:?}");
        assert_eq!(out, [FILL; 40]);
    }
    let abort = Metadata { abort: true, ..ids() };
    assert_eq!(lent::write_actions(abort, AGREED_FRAME, buffer, &actions, &mut []), Err(refused(Refusal::NOT_WRITABLE, 0)));
    let empty = lent::write_actions(ids(), 7, &[], &[], &mut out);
    assert_eq!((empty, &out[..11]), (Ok(11), &b"\0\0\0\x07\x67\0\0\0\x01\x01\x02"[..]));
}

#[test]
fn a_notify_is_written() {
    let buffer = b"delayslotok";
    let messages = [Message::new(0..5, 0..2), Message::new(0..0, 2..2)];
    let pairs = [Pair::new(5..9, Data::u32(7)), Pair::new(9..11, Data::bool(true))];
    let expected = b"\0\0\0\x1b\x03\0\0\0\x01\x01\x02\x05delay\x02\x04slot\x03\x07\x02ok\x11\x00\x00";
    let mut out = [FILL; 40];
    assert_eq!(lent::write_notify(ids(), 27, buffer, &messages, &pairs, &mut out), Ok(31));
    assert_eq!(out[..31], *expected);
    assert_eq!(out[31..], [FILL; 9]);

    let write = |messages: &[Message], pairs: &[Pair]| {
        let mut out = [FILL; 40];
        let answer = lent::write_notify(ids(), 27, buffer, messages, pairs, &mut out);
        assert!(answer.is_ok() || out == [FILL; 40]);
        answer.map_err(|refusal| (refusal.number, refusal.place))
    };
    assert_eq!(write(&[], &pairs), Err((Refusal::NOT_WRITABLE, 0)));
    assert_eq!(write(&[messages[0], Message::new(0..0, 1..2)], &pairs), Err((Refusal::NOT_WRITABLE, 1)));
    assert_eq!(write(&[messages[0], Message::new(12..12, 2..2)], &pairs), Err((Refusal::OUTSIDE, 1)));
    assert_eq!(write(&[Message::new(0..0, 0..256)], &[pairs[0]; 256]), Err((Refusal::TOO_MANY, 0)));
    assert_eq!(write(&messages, &[pairs[0], Pair::new(9..12, Data::null())]), Err((Refusal::OUTSIDE, 1)));
    assert_eq!(write(&[], &[]), Ok(11));
    let mut short = [FILL; 30];
    assert_eq!(lent::write_notify(ids(), 27, buffer, &messages, &pairs, &mut short), Err(refused(Refusal::NO_ROOM, 0)));
    assert_eq!(lent::write_notify(ids(), 26, buffer, &messages, &pairs, &mut short), Err(refused(Refusal::OVER_LIMIT, 0)));
}

// ---------------------------------------------------------------- the handshake

#[test]
fn sizes_and_versions_are_negotiated() {
    assert_eq!(lent::negotiate_max_frame_size(16_384, 4096), Ok(4096));
    assert_eq!(lent::negotiate_max_frame_size(256, u32::MAX), Ok(256));
    assert_eq!(lent::negotiate_max_frame_size(255, 256), Err(refused(Refusal::SIZE_TOO_SMALL, 0)));
    assert_eq!(lent::negotiate_max_frame_size(256, 255), Err(refused(Refusal::SIZE_TOO_SMALL, 0)));
    assert_eq!(lent::negotiate_version(&[[1, 5, 0, 0], [2, 3, 0, 0]]), Some([2, 0, 0]));
    assert_eq!(lent::negotiate_version(&[[1, 5, 0, 0], [3, 2, 2, 2]]), None);
    assert_eq!(lent::negotiate_version(&[]), None);
    assert_eq!(lent::negotiate_version(&[[2, 0, 0, 1], [2, 0, 0, u64::MAX]]), None, "release candidates of 2.0.0");
    assert_eq!(lent::negotiate_version(&[[2, 0, 1, 1]]), Some([2, 0, 0]));
    assert_eq!(lent::negotiate_version(&[[2, u64::MAX, 0, 1]]), Some([2, 0, 0]));
}
