"""Whether what was read from JSON has the form that it should. Nothing is kept here."""
from typing import Any


class Values:
    """The form of an object with any names, whose values have one form."""

    def __init__(self, form: Any) -> None:
        self.form = form


class Either:
    """What has one of several forms."""

    def __init__(self, *forms: Any) -> None:
        self.forms = forms


def fits(value: Any, form: Any) -> bool:
    """Whether a value has a form: a type, None, a list of one form, or an object that has at least these members, but for those whose
    names end in a question mark."""
    if isinstance(form, Either):
        return any(fits(value, one) for one in form.forms)
    if isinstance(form, Values):
        return isinstance(value, dict) and all(fits(one, form.form) for one in value.values())
    if isinstance(form, list):
        return isinstance(value, list) and all(fits(one, form[0]) for one in value)
    if isinstance(form, dict):
        return isinstance(value, dict) and all(has(value, name, one) for name, one in form.items())
    if form is None:
        return value is None
    return isinstance(value, form) and (form is not int or not isinstance(value, bool))


def has(members: dict[str, Any], name: str, form: Any) -> bool:
    """Whether an object has a member of a form, or lacks one that it may lack."""
    short = name.removesuffix("?")
    return fits(members[short], form) if short in members else short != name
