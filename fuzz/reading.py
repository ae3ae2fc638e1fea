"""Reads scripts as docs/USE.md has them."""
import json
import re

BIG = 2**63


class NoScript(Exception):
    pass


class NoInteger:
    """A number that is no integer of 64 bits."""


def integer(text):
    if text == "-0":
        return NoInteger
    if not -BIG <= int(text) < 2 * BIG:
        return number(text)
    return int(text)


def number(text):
    if abs(float(text)) == float("inf"):
        raise NoScript
    return NoInteger


def constant(text):
    raise NoScript


def depth(text):
    """How deep arrays and objects nest in a JSON text, also in what a later value of the same key replaces."""
    most = now = 0
    for it in re.sub(r'"(?:[^"\\]|\\.)*"', "", text):
        now += (it in "[{") - (it in "]}")
        most = max(most, now)
    return most


def has_surrogate(value):
    """Whether a value has half of a surrogate pair. (An object was looked at by `pairs`.)"""
    if isinstance(value, str):
        return re.search("[\ud800-\udfff]", value) is not None
    return isinstance(value, list) and any(map(has_surrogate, value))


def pairs(found):
    if has_surrogate([it for pair in found for it in pair]):
        raise NoScript
    return dict(found)


def read(data):
    """The numbers of variables and log slots of a script, and its entries. Raises NoScript."""
    try:
        text = data.decode("utf-8")
        value = json.loads(text, parse_int=integer, parse_float=number, parse_constant=constant, object_pairs_hook=pairs)
    except (ValueError, RecursionError):
        raise NoScript from None
    want(depth(text) <= 127 and not has_surrogate(value))
    want(isinstance(value, dict) and {*value} == {"vars", "slots", "events"} and isinstance(value["events"], list))
    for it in value["events"]:
        check_entry(it)
    return natural(value["vars"], 65535), natural(value["slots"], 65535), value["events"]


def want(condition):
    if not condition:
        raise NoScript


def natural(value, most):
    want(isinstance(value, int) and not isinstance(value, bool) and 0 <= value <= most)
    return value


def member(value):
    want(isinstance(value, dict) and len(value) == 1)
    return next(iter(value.items()))


def items(value, count=None):
    want(isinstance(value, list) and (count is None or len(value) == count))
    return value


def check_entry(value):
    if isinstance(value, str):
        return want(value in ("flush", "checkpoint", "look", "reopen", "show"))
    key, body = member(value)
    want(key in ("begin", "turn", "settle"))
    if key == "begin":
        index, tx = items(body, 2)
        check_tx(tx)
    else:
        index = body
    return natural(index, 15)


def check_tx(value):
    if isinstance(value, str):
        return want(value in ("skip", "retry"))
    key, body = member(value)
    if key == "seq":
        for it in items(body):
            check_tx(it)
    elif key == "put":
        register, put = items(body, 2)
        natural(register, 255)
        want(isinstance(put, int) and not isinstance(put, bool) and -BIG <= put < BIG)
    elif key in ("read", "write"):
        var, register = items(body, 2)
        natural(var, 65535)
        natural(register, 255)
    elif key == "step":
        name, args, register = items(body, 3)
        want(name in ("add", "sub", "need"))
        for it in [*items(args), register]:
            natural(it, 255)
    elif key == "when":
        register, first, second = items(body, 3)
        natural(register, 255)
        check_tx(first)
        check_tx(second)
    elif key == "orelse":
        for it in items(body, 2):
            check_tx(it)
    elif key == "abort":
        natural(body, 65535)
    else:
        want(key in ("check", "retire") and isinstance(body, str) and re.fullmatch("[a-z]{1,16}", body))
