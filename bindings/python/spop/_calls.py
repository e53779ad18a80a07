"""The library's calls as ctypes has them, and the library.

CALLS has an entry for each prototype of include/spop.h, in the header's order and with its names; tools/boundary makes it, and the
fields of spop_pair. `const uint8_t *` is c_char_p, which lends a bytes object as it is; an array of fixed width is a pointer to that
array, so that one of another width is no argument.
"""
import os
from ctypes import CDLL, POINTER, Structure, c_bool, c_char_p, c_size_t, c_uint8, c_uint32, c_uint64
from typing import Any, Dict, List, Tuple


class spop_pair(Structure):
    """A pair's six numbers by name."""

    _fields_ = [("key_start", c_uint64), ("key_len", c_uint64), ("kind", c_uint64), ("a", c_uint64), ("b", c_uint64),
                ("flags", c_uint64)]


CALLS: Dict[str, Tuple[Any, List[Tuple[str, Any]]]] = {
    "spop_varint_len": (c_uint64, [("n", c_uint64)]),
    "spop_encode_varint": (c_uint64, [("n", c_uint64), ("out", POINTER(c_uint8)), ("out_len", c_size_t),
                                      ("at", POINTER(c_uint64))]),
    "spop_decode_varint": (c_uint64, [("input", c_char_p), ("input_len", c_size_t), ("value", POINTER(c_uint64)),
                                      ("at", POINTER(c_uint64))]),
    "spop_is_utf8": (c_bool, [("bytes", c_char_p), ("len", c_size_t)]),
    "spop_same_text": (c_bool, [("a", c_char_p), ("a_len", c_size_t), ("b", c_char_p), ("b_len", c_size_t)]),
    "spop_same_text_plain": (c_uint64, [("a", c_char_p), ("a_len", c_size_t), ("b", c_char_p), ("b_len", c_size_t),
                                        ("a_text", POINTER(c_uint8)), ("a_text_len", c_size_t), ("b_text", POINTER(c_uint8)),
                                        ("b_text_len", c_size_t), ("same", POINTER(c_bool)), ("at", POINTER(c_uint64))]),
    "spop_lossy_text": (c_uint64, [("bytes", c_char_p), ("len", c_size_t), ("out", POINTER(c_uint8)), ("out_len", c_size_t),
                                   ("at", POINTER(c_uint64))]),
    "spop_typed_data": (c_uint64, [("input", c_char_p), ("input_len", c_size_t), ("value", POINTER(c_uint64 * 4)),
                                   ("at", POINTER(c_uint64))]),
    "spop_value_len": (c_uint64, [("value", POINTER(c_uint64 * 4)), ("buffer", c_char_p), ("buffer_len", c_size_t)]),
    "spop_check_value": (c_uint64, [("value", POINTER(c_uint64 * 4)), ("buffer", c_char_p), ("buffer_len", c_size_t)]),
    "spop_write_value": (c_uint64, [("value", POINTER(c_uint64 * 4)), ("buffer", c_char_p), ("buffer_len", c_size_t),
                                    ("out", POINTER(c_uint8)), ("out_len", c_size_t), ("at", POINTER(c_uint64))]),
    "spop_read_pair": (c_uint64, [("input", c_char_p), ("input_len", c_size_t), ("pair", POINTER(c_uint64 * 6)),
                                  ("at", POINTER(c_uint64))]),
    "spop_read_frame": (c_uint64, [("input", c_char_p), ("input_len", c_size_t), ("limit", c_uint32),
                                   ("messages", POINTER(c_uint64)), ("messages_len", c_size_t), ("pairs", POINTER(c_uint64)),
                                   ("pairs_len", c_size_t), ("head", POINTER(c_uint64 * 6)), ("at", POINTER(c_uint64))]),
    "spop_read_frame_records": (c_uint64, [("input", c_char_p), ("input_len", c_size_t), ("limit", c_uint32),
                                           ("messages", POINTER(c_uint64)), ("messages_len", c_size_t),
                                           ("pairs", POINTER(spop_pair)), ("pairs_len", c_size_t),
                                           ("head", POINTER(c_uint64 * 6)), ("at", POINTER(c_uint64))]),
    "spop_read_agent_frame": (c_uint64, [("input", c_char_p), ("input_len", c_size_t), ("limit", c_uint32),
                                         ("pairs", POINTER(c_uint64)), ("pairs_len", c_size_t), ("actions", POINTER(c_uint64)),
                                         ("actions_len", c_size_t), ("head", POINTER(c_uint64 * 6)), ("at", POINTER(c_uint64))]),
    "spop_read_frames": (c_uint64, [("input", c_char_p), ("input_len", c_size_t), ("limit", c_uint32),
                                    ("rows", POINTER(c_uint64)), ("rows_len", c_size_t), ("messages", POINTER(c_uint64)),
                                    ("messages_len", c_size_t), ("pairs", POINTER(c_uint64)), ("pairs_len", c_size_t),
                                    ("counts", POINTER(c_uint64 * 4)), ("at", POINTER(c_uint64))]),
    "spop_write_kv": (c_uint64, [("type", c_uint64), ("fin", c_bool), ("abort", c_bool), ("stream_id", c_uint64),
                                 ("frame_id", c_uint64), ("limit", c_uint32), ("buffer", c_char_p), ("buffer_len", c_size_t),
                                 ("pairs", POINTER(c_uint64)), ("pairs_len", c_size_t), ("pair_count", c_uint64),
                                 ("out", POINTER(c_uint8)), ("out_len", c_size_t), ("at", POINTER(c_uint64))]),
    "spop_write_actions": (c_uint64, [("fin", c_bool), ("abort", c_bool), ("stream_id", c_uint64), ("frame_id", c_uint64),
                                      ("limit", c_uint32), ("buffer", c_char_p), ("buffer_len", c_size_t),
                                      ("actions", POINTER(c_uint64)), ("actions_len", c_size_t), ("action_count", c_uint64),
                                      ("out", POINTER(c_uint8)), ("out_len", c_size_t), ("at", POINTER(c_uint64))]),
    "spop_write_notify": (c_uint64, [("fin", c_bool), ("abort", c_bool), ("stream_id", c_uint64), ("frame_id", c_uint64),
                                     ("limit", c_uint32), ("buffer", c_char_p), ("buffer_len", c_size_t),
                                     ("messages", POINTER(c_uint64)), ("messages_len", c_size_t), ("message_count", c_uint64),
                                     ("pairs", POINTER(c_uint64)), ("pairs_len", c_size_t), ("pair_count", c_uint64),
                                     ("out", POINTER(c_uint8)), ("out_len", c_size_t), ("at", POINTER(c_uint64))]),
    "spop_negotiate_max_frame_size": (c_uint64, [("theirs", c_uint32), ("ours", c_uint32), ("at", POINTER(c_uint64))]),
    "spop_negotiate_version": (c_bool, [("versions", POINTER(c_uint64)), ("versions_len", c_size_t),
                                        ("version", POINTER(c_uint64 * 3))]),
}


def load() -> CDLL:
    """The library: the file that SPOP_LIBRARY names, else libspop.so beside this module, else the system's libspop.so.0."""
    named = os.environ.get("SPOP_LIBRARY")
    beside = os.path.join(os.path.dirname(os.path.abspath(__file__)), "libspop.so")
    if named:
        return _opened(os.path.abspath(named), "SPOP_LIBRARY names it")
    if os.path.lexists(beside):
        return _opened(beside, "it stands beside the module")
    return _opened("libspop.so.0", f"SPOP_LIBRARY is not set, and there is no {beside}")


def _opened(path: str, why: str) -> CDLL:
    try:
        library = CDLL(path)
        for name, (answer, parameters) in CALLS.items():
            call = getattr(library, name)
            call.restype = answer
            call.argtypes = [kind for _, kind in parameters]
    except (OSError, AttributeError) as error:
        raise ImportError(f"spop: the library {path} cannot be used ({why}): {error}") from None
    return library
