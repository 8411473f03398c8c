"""Values of declared types in JSON: what is written of them, and what is read of what others may
have written, which raises an `Unreadable` where it is none.

| Type | In JSON |
|---|---|
| `str`, `bool`, `int` | itself: a text of UTF-8, and a whole number from 0 on |
| `Signed`, `Oid`, `Lsn` | a number of 32 bits; an OID, also as a field's name; the text of an LSN |
| a list, a tuple or a set of one type; a named tuple | a list |
| a dict; a dataclass | an object, with the fields that aren't `unkept` |
| any of these, or None | that, or null |
"""

import dataclasses
import functools
import typing
from collections.abc import Callable
from typing import Annotated, Any, NamedTuple

from . import json_texts
from .json_texts import Unreadable, list_of, object_of
from .texts import is_utf_8, lsn_text


class Form(NamedTuple):
    """How values of a type are read and written."""

    read: Callable[[Any], Any]
    written: Callable[[Any], Any] = lambda it: it


def read_text(value: Any) -> str:
    if type(value) is str and value.isascii():
        return value
    if not is_utf_8(json_texts.text_of(value)):
        raise Unreadable("a text that isn't UTF-8")
    return str(value)


PLAIN = {str: Form(read_text), bool: Form(json_texts.flag_of), int: Form(json_texts.whole_of)}
Signed = Annotated[int, Form(json_texts.signed_of)]
Oid = Annotated[int, Form(json_texts.oid_of)]
Lsn = Annotated[int, Form(json_texts.lsn_of, lsn_text)]
UNKEPT = "unkept"


def unkept(default: Any) -> Any:
    """A field of a dataclass that isn't kept, nor compared."""
    return dataclasses.field(default=default, compare=False, metadata={UNKEPT: True})


@functools.cache
def form_of(kind: Any) -> Form:
    """That of the values of a type."""
    origin, inner = typing.get_origin(kind), typing.get_args(kind)
    if kind in PLAIN:
        return PLAIN[kind]
    if origin is Annotated:
        return typing.cast(Form, inner[1])
    if origin is dict:
        return form_of_dict(*map(form_of, inner))
    if origin in (list, tuple, set):
        several = origin is not tuple or inner[-1] is ...
        return form_of_several(origin, form_of(inner[0])) if several else form_of_row(tuple, inner)
    if inner:
        return form_of_maybe(form_of(inner[0]))
    hints = typing.get_type_hints(kind, include_extras=True)
    if dataclasses.is_dataclass(kind):
        kept = [it.name for it in dataclasses.fields(kind) if UNKEPT not in it.metadata]
        return form_of_object(kind, {name: form_of(hints[name]) for name in kept})
    return form_of_row(kind._make, tuple(hints.values()))


def form_of_maybe(form: Form) -> Form:
    def or_none(call: Callable[[Any], Any]) -> Callable[[Any], Any]:
        return lambda it: None if it is None else call(it)

    return Form(or_none(form.read), or_none(form.written))


def form_of_dict(key: Form, value: Form) -> Form:
    return Form(
        lambda said: {key.read(name): value.read(it) for name, it in object_of(said).items()},
        lambda known: {str(key.written(name)): value.written(it) for name, it in known.items()},
    )


def form_of_several(kind: Callable[[Any], Any], form: Form) -> Form:
    read, written = form
    return Form(
        lambda said: kind([read(it) for it in list_of(said)]),
        lambda known: [written(it) for it in (sorted(known) if kind is set else known)],
    )


def form_of_row(kind: Callable[[Any], Any], kinds: tuple[Any, ...]) -> Form:
    """A list of one of each type."""
    forms = [form_of(it) for it in kinds]
    reads = [it.read for it in forms]

    def read(said: Any) -> Any:
        if len(list_of(said)) != len(reads):
            raise Unreadable(f"{len(said)} values in place of {len(reads)}")
        return kind([read(it) for read, it in zip(reads, said)])

    return Form(read, lambda known: [form.written(it) for form, it in zip(forms, known)])


def form_of_object(kind: Callable[..., Any], forms: dict[str, Form]) -> Form:
    """An object with these fields, and perhaps others, as a later version may write them."""

    reads = [(name, it.read) for name, it in forms.items()]

    def read(said: Any) -> Any:
        if missing := forms.keys() - object_of(said).keys():
            raise Unreadable(f"there is no {min(missing)}")
        return kind(**{name: read(said[name]) for name, read in reads})

    def written(it: Any) -> Any:
        return {name: form.written(getattr(it, name)) for name, form in forms.items()}

    return Form(read, written)
