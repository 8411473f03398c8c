"""What is found out about one precondition."""

import dataclasses
import functools

OK, WARNING, ERROR = "ok", "warning", "error"


@dataclasses.dataclass
class Result:
    """One precondition."""

    level: str
    name: str
    text: str


ok, warning, error = (functools.partial(Result, level) for level in (OK, WARNING, ERROR))
