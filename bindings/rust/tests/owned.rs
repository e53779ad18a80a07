//! Frames that own their bytes, builders, and the frames of a stream.

use muleflurry::{
    owned::{
        frames, read_frame, read_frames, Ack, Action, Argument, Frame, FramesRead, Kv, Message, Notify, StreamError, Tables,
        Text, Value,
    },
    Answer, FrameType, Metadata, Refusal, Scope, AGREED_FRAME, MAX_FRAME,
};
use std::io::{self, Read};

fn refused(number: u64, place: usize) -> Refusal {
    Refusal { number, place }
}

/// The bytes of a frame with FIN alone and the ids 1 and 2, by its type and payload.
fn frame(kind: u8, payload: &[u8]) -> Vec<u8> {
    let body = [&[kind, 0, 0, 0, 1, 1, 2], payload].concat();
    [&(body.len() as u32).to_be_bytes(), &body[..]].concat()
}

fn ids() -> Metadata {
    Metadata { stream_id: 1, frame_id: 2, ..Metadata::default() }
}

/// An argument of each kind, and its bytes.
fn each_kind() -> Vec<(Argument, &'static [u8])> {
    let ipv6 = [0x20, 0x01, 0x0d, 0xb8, 0, 0, 0, 0, 0, 0, 0, 0, 0, 0, 0, 1];
    let mut flagged = Argument::new("f", 7u32);
    flagged.flags = 15;
    vec![
        (Argument::new("n", Value::Null), b"\x01n\x00"),
        (Argument::new("b", true), b"\x01b\x11"),
        (Argument::new("b", false), b"\x01b\x01"),
        (Argument::new("i", -1i32), b"\x01i\x02\xff\xf0\xfe\xfe\xfe\xfe\xfe\xfe\xfe\x0e"),
        (Argument::new("u", 239u32), b"\x01u\x03\xef"),
        (Argument::new("I", -730i64), b"\x01I\x04\xf6\xc3\xfe\xfe\xfe\xfe\xfe\xfe\xfe\x0e"),
        (Argument::new("U", u64::MAX), b"\x01U\x05\xff\xf0\xfe\xfe\xfe\xfe\xfe\xfe\xfe\x0e"),
        (Argument::new("4", std::net::Ipv4Addr::from([192, 0, 2, 1])), b"\x014\x06\xc0\x00\x02\x01"),
        (
            Argument::new("6", std::net::IpAddr::from(ipv6)),
            b"\x016\x07\x20\x01\x0d\xb8\x00\x00\x00\x00\x00\x00\x00\x00\x00\x00\x00\x01",
        ),
        (Argument::new("s", "2.0"), b"\x01s\x08\x032.0"),
        (Argument::new("B", &b"\x00\xff"[..]), b"\x01B\x09\x02\x00\xff"),
        (flagged, b"\x01f\xf3\x07"),
        (Argument::new("", String::new()), b"\x00\x08\x00"),
    ]
}

// ---------------------------------------------------------------- written and read back

#[test]
fn every_kind_is_written_and_read_back_in_order() {
    let (arguments, bytes): (Vec<_>, Vec<_>) = each_kind().into_iter().unzip();
    let upload = Message { name: "upload".into(), arguments };
    let notify = Notify::new(ids()).message(upload.clone()).message(Message::default());
    let expected = frame(3, &[b"\x06upload\x0d", &bytes.concat()[..], b"\x00\x00"].concat());
    assert_eq!(notify.write(AGREED_FRAME).unwrap(), expected);

    let read = read_frame(&expected, AGREED_FRAME).unwrap();
    assert_eq!((read.kind, read.metadata, read.used), (FrameType::Notify, ids(), expected.len()));
    assert_eq!((read.messages, read.pairs), (notify.messages, vec![]));
    assert_eq!((upload.get("b"), upload.get("x")), (Some(&Value::Bool(true)), None));
}

#[test]
fn a_kv_list_is_written_and_read_back_in_order() {
    let (mut pairs, mut bytes): (Vec<_>, Vec<_>) = each_kind().into_iter().unzip();
    // Its keys may not repeat.
    pairs.remove(2);
    bytes.remove(2);
    for (kind, number) in [(FrameType::HaproxyHello, 1), (FrameType::HaproxyDisconnect, 2)] {
        let kv = Kv { kind, metadata: ids(), pairs: pairs.clone() };
        let expected = frame(number, &bytes.concat());
        assert_eq!(kv.write(AGREED_FRAME).unwrap(), expected);
        let read = read_frame(&expected, AGREED_FRAME).unwrap();
        assert_eq!((read.kind, read.messages.len(), &read.pairs), (kind, 0, &pairs));
        assert_eq!((read.get("s"), read.get("S")), (Some(&Value::from("2.0")), None));
    }
}

#[test]
fn every_kind_is_set_by_an_ack() {
    let mut ack = Ack::new(ids());
    let mut expected = Vec::new();
    for (argument, bytes) in each_kind() {
        ack.actions.push(Action::SetVar {
            scope: Scope::Request,
            name: argument.key,
            value: argument.value,
            flags: argument.flags,
        });
        expected.extend([b"\x01\x03\x03", bytes].concat());
    }
    let ack = ack.unset_var(Scope::Session, "old").set_var(Scope::Process, "new", 1u64);
    expected.extend(b"\x02\x02\x01\x03old\x01\x03\x00\x03new\x05\x01");
    assert_eq!(ack.write(AGREED_FRAME).unwrap(), frame(103, &expected));
}

#[test]
fn the_handshakes_frames_are_written() {
    let hello = b"\x07version\x08\x032.0\x0emax-frame-size\x03\xfc\xf0\x06\x0ccapabilities\x08\0";
    let written = Kv::agent_hello("2.0", 16_380, "").write(AGREED_FRAME).unwrap();
    assert_eq!(written, [&b"\0\0\0\x36\x65\0\0\0\x01\0\0"[..], hello].concat());

    let written = Kv::haproxy_hello("2.0, 1.5", 16_380, "pipelining").write(AGREED_FRAME).unwrap();
    let hello = b"\x12supported-versions\x08\x082.0, 1.5\x0emax-frame-size\x03\xfc\xf0\x06\x0ccapabilities\x08\x0apipelining";
    assert_eq!(written, [&b"\0\0\0\x50\x01\0\0\0\x01\0\0"[..], hello].concat());

    let bye = b"\x0bstatus-code\x03\x00\x07message\x08\x06normal";
    let written =
        [Kv::agent_disconnect(0, "normal"), Kv::haproxy_disconnect(0, "normal")].map(|kv| kv.write(AGREED_FRAME).unwrap());
    assert_eq!(written[0], [&b"\0\0\0\x25\x66\0\0\0\x01\0\0"[..], bye].concat());
    assert_eq!(written[1], [&b"\0\0\0\x25\x02\0\0\0\x01\0\0"[..], bye].concat());
}

#[test]
fn what_cannot_be_written_is_refused() {
    let ill = || muleflurry::Text(b"\xff".to_vec());
    let notify = |message: Message| Notify::new(ids()).message(Message::new("first")).message(message).write(AGREED_FRAME);
    let many = (0..256).fold(Message::new("many"), |message, _| message.argument("", true));
    assert_eq!(notify(Message::new(ill())), Err(refused(Refusal::NOT_TEXT, 1)));
    assert_eq!(notify(Message::new("m").argument("a", 1u32).argument(ill(), 2u32)), Err(refused(Refusal::NOT_TEXT, 1)));
    assert_eq!(notify(Message::new("m").argument("a", Value::String(ill()))), Err(refused(Refusal::NOT_TEXT, 0)));
    assert!(notify(Message::new("m").argument("a", Value::Binary(b"\xff".to_vec()))).is_ok());
    assert_eq!(notify(many), Err(refused(Refusal::TOO_MANY, 1)));
    let mut flagged = Argument::new("a", 7u32);
    flagged.flags = 16;
    assert_eq!(notify(Message { name: "m".into(), arguments: vec![flagged] }), Err(refused(Refusal::NOT_WRITABLE, 0)));

    let twice = Kv::new(FrameType::HaproxyHello).pair("a", 1u32).pair("b", 1u32).pair("a", 2u32);
    assert_eq!(twice.write(AGREED_FRAME), Err(refused(Refusal::MET_TWICE, 2)));
    assert_eq!(Kv::new(FrameType::Ack).write(AGREED_FRAME), Err(refused(Refusal::NOT_WRITABLE, 0)));
    assert_eq!(Ack::new(ids()).write(6), Err(refused(Refusal::OVER_LIMIT, 0)));
    assert_eq!(Ack::new(ids()).write(7).map(|frame| frame.len()), Ok(11));
    assert_eq!(Ack::new(ids()).unset_var(Scope::Session, ill()).write(99), Err(refused(Refusal::NOT_TEXT, 0)));
}

#[test]
fn the_longest_forms_have_room() {
    let metadata = Metadata { stream_id: u64::MAX, frame_id: u64::MAX, ..Metadata::default() };
    let text = "x".repeat(5000);
    let notify = Notify::new(metadata).message(Message::new(&text[..]).argument(&text[..], &text[..]).argument("", u64::MAX));
    // 4 + 5 + 2 * 10; a length of 5000 takes three bytes; one count byte; a key of no byte, and a number of ten.
    assert_eq!(notify.write(AGREED_FRAME).map(|frame| frame.len()), Ok(29 + 3 * 5003 + 1 + 1 + 12));
    let ack = (0..600).fold(Ack::new(metadata), |ack, _| ack.set_var(Scope::Session, "", u64::MAX));
    assert_eq!(ack.write(AGREED_FRAME).map(|frame| frame.len()), Ok(29 + 600 * 15));
    let notify = (0..500).fold(Notify::new(metadata), |notify, _| notify.message(Message::default()));
    assert_eq!(notify.write(AGREED_FRAME).map(|frame| frame.len()), Ok(29 + 500 * 2));
}

// ---------------------------------------------------------------- read

#[test]
fn tables_grow_as_a_frame_needs() {
    let mut tables = Tables::default();
    for (messages, arguments) in [(0, 0), (1, 255), (1000, 0), (300, 20), (1, 1), (8000, 1)] {
        let message = [&[0, arguments as u8][..], &b"\x00\x00".repeat(arguments)].concat();
        let input = frame(3, &message.repeat(messages));
        let read = tables.read(&input, MAX_FRAME).unwrap();
        assert_eq!((read.messages().len(), read.pairs().len()), (messages, messages * arguments));
        assert_eq!(read_frame(&input, MAX_FRAME).unwrap().messages.len(), messages);
    }
}

/// A KV list of so many keys, all of them different.
fn keys(count: usize) -> Vec<u8> {
    let key = |index: usize| [3, b'0' + (index >> 12) as u8, b'0' + (index >> 6 & 63) as u8, b'0' + (index & 63) as u8, 0];
    frame(1, &(0..count).flat_map(key).collect::<Vec<u8>>())
}

#[test]
fn a_kv_list_has_an_end() {
    let most = Tables::MOST_KEYS;
    let mut tables = Tables::default();
    assert_eq!(tables.read(&keys(most), MAX_FRAME).unwrap().pairs().len(), most);
    // What was read before does not count.
    tables.read(&frame(3, &b"\x00\x00".repeat(2 * most)), MAX_FRAME).unwrap();
    let full = Answer::Refused(refused(Refusal::TABLE_FULL, 11 + 5 * (most + 1)));
    assert_eq!(tables.read(&keys(most + 1), MAX_FRAME).unwrap_err(), full);
    assert_eq!(read_frame(&keys(most + 1), MAX_FRAME), Err(full));
}

#[test]
fn a_kv_list_of_the_agreed_size_has_room() {
    let ascii = || (0..128).map(|byte: u8| vec![byte]);
    let two = ascii().flat_map(|one| ascii().map(move |other| [&one[..], &other].concat()));
    let keys = [vec![], vec![0xff]].into_iter().chain(ascii()).chain(two);
    let pairs = keys.flat_map(|key| [&[key.len() as u8][..], &key, &[0]].concat());
    // The head without its length bytes has seven, and 2 + 129 * 3 + 3997 * 4 are the rest of 16,384.
    let payload: Vec<u8> = pairs.take(AGREED_FRAME as usize - 7).collect();
    let read = read_frame(&frame(1, &payload), AGREED_FRAME).unwrap();
    assert_eq!((read.pairs.len(), read.used), (1 + 129 + 3997, AGREED_FRAME as usize + 4));
}

#[test]
fn a_buffer_is_read_as_its_frames_are() {
    let many = frame(3, &[&[0, 255][..], &b"\x00\x00".repeat(255)].concat().repeat(20));
    let sorts = [
        frame(3, b"\x01m\x02\x01a\x03\x07\x01b\x11\x01n\x00"),
        frame(3, b""),
        frame(1, b"\x01a\x00\x01b\x00"),
        frame(2, b""),
        many,
    ];
    let most = Tables::MOST_KEYS;
    // Of the short ones more than a call has room for; all of them in turn; and a list of as many keys as there may be.
    let mut buffers: Vec<Vec<Vec<u8>>> = sorts[..4].iter().map(|sort| vec![sort.clone(); 1100]).collect();
    buffers.push(sorts.iter().cloned().cycle().take(23).collect());
    buffers.push(vec![sorts[0].clone(), keys(most), sorts[0].clone()]);
    for frames in buffers {
        let input = [frames.concat(), sorts[0][..9].to_vec()].concat();
        let read = read_frames(&input, MAX_FRAME);
        let one_by_one: Vec<Frame> = frames.iter().map(|frame| read_frame(frame, MAX_FRAME).unwrap()).collect();
        assert!(read.frames == one_by_one);
        assert_eq!((read.used, read.stopped), (input.len() - 9, Answer::Wait { missing: sorts[0].len() - 9 }));
    }
    let input = [sorts[0].clone(), keys(most + 1), sorts[0].clone()].concat();
    let read = read_frames(&input, MAX_FRAME);
    let full = Answer::Refused(refused(Refusal::TABLE_FULL, 11 + 5 * (most + 1)));
    assert_eq!((read.frames.len(), read.used, read.stopped), (1, sorts[0].len(), full));
    assert_eq!(read_frames(&[], MAX_FRAME), FramesRead { frames: vec![], used: 0, stopped: Answer::Wait { missing: 4 } });
}

#[test]
fn what_is_read_may_be_written_again() {
    let mut input = frame(3, b"\x01m\x02\x01a\x23\x07\x01b\x09\x02\x00\xff\x00\x01\x01a\x11");
    let Frame { metadata, messages, .. } = read_frame(&input, AGREED_FRAME).unwrap();
    assert_eq!(Notify { metadata, messages }.write(AGREED_FRAME).unwrap(), input);
    // A text that is not UTF-8 is read with all its bytes, and is not written.
    input[12] = 0xff;
    let Frame { metadata, messages, .. } = read_frame(&input, AGREED_FRAME).unwrap();
    assert_eq!(messages[0].name, muleflurry::Text(b"\xff".to_vec()));
    assert_eq!(Notify { metadata, messages }.write(AGREED_FRAME), Err(refused(Refusal::NOT_TEXT, 0)));
}

// ---------------------------------------------------------------- streams

/// A reader that gives its bytes in pieces of these lengths, and then at once; a piece of no byte is an error of that kind.
struct Pieces<'a> {
    bytes: &'a [u8],
    lengths: Vec<usize>,
    error: io::ErrorKind,
}

impl Read for Pieces<'_> {
    fn read(&mut self, out: &mut [u8]) -> io::Result<usize> {
        let length = if self.lengths.is_empty() { usize::MAX } else { self.lengths.remove(0) };
        if length == 0 {
            return Err(self.error.into());
        }
        let (piece, rest) = self.bytes.split_at(length.min(self.bytes.len()).min(out.len()));
        out[..piece.len()].copy_from_slice(piece);
        self.bytes = rest;
        Ok(piece.len())
    }
}

fn two_frames() -> Vec<u8> {
    [frame(3, b"\x01m\x01\x01a\x03\x07"), frame(1, b"\x01b\x00")].concat()
}

fn shown(frames: impl Iterator<Item = Result<Frame, StreamError>>) -> Vec<String> {
    // No stream here has as many.
    let frames = frames.take(9).map(|frame| match frame {
        Ok(frame) => format!("type {}, {} bytes", frame.kind.number(), frame.used),
        Err(error) => error.to_string(),
    });
    frames.collect()
}

const BOTH: [&str; 2] = ["type 3, 18 bytes", "type 1, 14 bytes"];

#[test]
fn a_stream_may_be_cut_anywhere() {
    let bytes = two_frames();
    for first in 1..bytes.len() {
        for second in 1..=bytes.len() - first {
            let lengths = vec![first, second];
            let pieces = Pieces { bytes: &bytes, lengths, error: io::ErrorKind::Other };
            assert_eq!(shown(frames(pieces, AGREED_FRAME)), BOTH);
        }
    }
    let pieces = Pieces { bytes: &bytes, lengths: vec![1; 99], error: io::ErrorKind::Other };
    assert_eq!(shown(frames(pieces, AGREED_FRAME)), BOTH);
}

#[test]
fn a_stream_that_ends_too_soon_says_what_is_missing() {
    let bytes = two_frames();
    for length in 0..bytes.len() {
        let mut stream = frames(&bytes[..length], AGREED_FRAME);
        let got = shown(&mut stream);
        let (whole, rest) = if length < 18 { (0, length) } else { (1, length - 18) };
        let missing = if rest < 4 { 4 - rest } else { [18, 14][whole] - rest };
        let mut expected = BOTH[..whole].to_vec();
        let cut = format!("not whole: bytes missing: {missing}");
        expected.extend((rest > 0).then_some(&cut[..]));
        assert_eq!(got, expected);
        assert_eq!(stream.rest(), &bytes[length - rest..length]);
        assert!(stream.next().is_none() && !stream.pass_over());
    }
}

#[test]
fn a_frame_is_given_before_more_is_read() {
    let bytes = two_frames();
    let mut stream = frames(Pieces { bytes: &bytes, lengths: vec![18, 0], error: io::ErrorKind::Other }, AGREED_FRAME);
    assert!(stream.next().unwrap().is_ok());
    assert!(matches!(stream.next(), Some(Err(StreamError::Io(_)))));
}

#[test]
fn an_error_of_the_reader_loses_nothing() {
    let bytes = two_frames();
    let pieces = Pieces { bytes: &bytes, lengths: vec![7, 0, 3, 0, 99], error: io::ErrorKind::WouldBlock };
    let mut stream = frames(pieces, AGREED_FRAME);
    for _ in 0..2 {
        let Some(Err(StreamError::Io(error))) = stream.next() else { panic!("the reader failed") };
        assert_eq!(error.kind(), io::ErrorKind::WouldBlock);
    }
    assert_eq!(stream.rest().len(), 10);
    assert_eq!(shown(&mut stream), BOTH);
    let pieces = Pieces { bytes: &bytes, lengths: vec![7, 0, 0, 3], error: io::ErrorKind::Interrupted };
    assert_eq!(shown(frames(pieces, AGREED_FRAME)), BOTH);
}

#[test]
fn a_refused_frame_stops_the_stream_or_is_passed_over() {
    let bytes = [two_frames(), frame(3, b"\x01m\x01\x01a\x0a"), two_frames()].concat();
    let mut stream = frames(&bytes[..], AGREED_FRAME);
    assert_eq!(shown(&mut stream), [BOTH[0], BOTH[1], "refused: 8 at 17: a data type is none of 0 to 9"]);
    assert!(stream.next().is_none());
    assert_eq!(stream.rest(), &bytes[32..]);
    assert!(stream.pass_over());
    assert_eq!(shown(&mut stream), BOTH);
    assert!(!stream.pass_over());
}

#[test]
fn a_frame_over_the_limit_is_neither_waited_for_nor_passed_over() {
    let long = [0, 0, 0x40, 1];
    let mut stream = frames(&long[..], AGREED_FRAME);
    assert_eq!(shown(&mut stream), ["refused: 2 at 4: the frame's length is over the limit"]);
    assert!(!stream.pass_over() && stream.next().is_none());

    let bytes = two_frames();
    let mut stream = frames(&bytes[..], 14);
    assert!(stream.next().unwrap().is_ok());
    stream.set_limit(9);
    assert_eq!(shown(&mut stream), ["refused: 2 at 4: the frame's length is over the limit"]);
}

#[test]
fn a_long_frame_comes_in_many_reads() {
    let binary = vec![0xab; 300_000];
    let notify = Notify::new(ids()).message(Message::new("m").argument("a", binary.clone()));
    let bytes = notify.write(MAX_FRAME).unwrap().repeat(3);
    let read: Vec<Frame> = frames(&bytes[..], MAX_FRAME).map(Result::unwrap).collect();
    assert_eq!(read.len(), 3);
    assert!(read.iter().all(|frame| frame.messages[0].get("a") == Some(&Value::Binary(binary.clone()))));
}

#[test]
fn the_types_of_values_are_their_kinds() {
    let kinds = [Value::from(3), Value::from(3u32), Value::from(3i64), Value::from(3u64), Value::from(Text::from("3"))];
    let names = kinds.map(|value| value.kind().number());
    assert_eq!(names, [2, 3, 4, 5, 8]);
}
