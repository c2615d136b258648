"""The calls that are made on shapes: operations of crates/sf_calls and, with `c_`, of calls.c."""

import functools

from counting import TOP, built, compiled, made, record


def calls_of(names, kinds=("item", "list", "dict")):
    """Calls on fields of these kinds: operations, some with a parameter."""
    return [(name.strip(), kinds) for name in names.split(",")]


LIST, DICT = ("list",), ("dict",)

TEXTS = [
    *calls_of("parse_text, parse_text_in, feed, feed 1, feed 7, feed 64, feed 512, parse_reader"),
    *calls_of("normalise, accepts, scan, field_nodes, parse_declined, refuse_text"),
    *calls_of("c_check, c_normalise, c_parse, c_equal"),
    *calls_of("item_cursor, hop_cursor, c_cache_status, c_append", LIST),
    *calls_of("dict_cursor, of_cache_control", DICT),
    *calls_of("c_cache_control, c_cache_rules, c_select, c_select_rules, c_fallback", DICT),
    *calls_of("c_priority, c_response_priority, c_priority_change", DICT),
]
# Calls on texts that are refused, and on texts that are accepted.
MESSAGES = calls_of("message, c_refusal_in_text")
VALUES = [
    *calls_of("to_field, view_text, of_field, flatten"),
    *calls_of("to_text, write_field, copy, copy 3, same, remove, set_field, c_write"),
    *calls_of("append_hop, c_hop_text", LIST),
    *calls_of("entry, get, update_priority, priority_field, c_find", DICT),
]
LINES = [
    *calls_of("feed_line, parse_lines, parse_from, normalise_lines, append_line, from_headers"),
    *calls_of("c_join"),
    *calls_of("cache_status, ask_from, append_to_lines", LIST),
    *calls_of("directives, targeted_rules, priority, select, select_rules", DICT),
    *calls_of("of_cache_control_lines, fallback_rules", DICT),
]
LINE_MESSAGES = calls_of("message_in_lines")
COMMANDS = [
    *calls_of("sf_check, sf_normalise, sf_show, sflint"),
    *calls_of("sf_cache_status", LIST),
    *calls_of("sf_priority, sf_targeted, sf_decide, sflint_decide", DICT),
]

# The most bytes that a command reads.
INPUT_LIMIT = 1 << 20

# A field of each kind, for commands that read heads of messages.
NAMES = {
    "item": b"Origin-Agent-Cluster: ",
    "list": b"Cache-Status: ",
    "dict": b"CDN-Cache-Control: ",
}


def calls_on(shape):
    """The calls that are made on a shape."""
    calls = LINES + COMMANDS + (LINE_MESSAGES if shape.mistake else [])
    if b"\n" not in shape.make(2):
        calls = calls + TEXTS + (MESSAGES if shape.mistake else VALUES)
    return [call for call, kinds in calls if shape.kind in kinds]


def is_command(call):
    """Whether the call reads an input to its end."""
    return any(call == name for name, _ in COMMANDS)


def is_for_c(call):
    """Whether the call is one of the library for C."""
    return call.startswith("c_")


def programs(calls, folder):
    """The programs that make these calls, by whether they are of the library for C."""
    made_by = {}
    if any(is_for_c(call) for call in calls):
        made("c", "libsf.a")
        made_by[True] = compiled("calls.c", f"{folder}/calls", f"{TOP}/c/libsf.a")
    if not all(is_for_c(call) for call in calls):
        made_by[False] = built("sf_calls")
    return made_by


@functools.lru_cache(maxsize=4)
def text_of(shape, size):
    """The text of a shape. The calls on it are made one after the other, so few texts are kept."""
    return shape.make(size)


def job(made_by, shape, call, size):
    """The program that makes a call on a shape of this size, and its record."""
    operation, _, parameter = call.partition(" ")
    text = text_of(shape, size)
    if call in ("sf_targeted", "sf_decide", "sflint", "sflint_decide"):
        name = NAMES[shape.kind]
        text = name + text.replace(b"\n", b"\n" + name)
    program = made_by[is_for_c(call)]
    return program, record(operation, shape.kind, int(parameter or 0), 1, text)
