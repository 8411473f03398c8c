"""The module `libpq`, which is imported once it is needed, since psycopg is imported with it."""

from typing import TYPE_CHECKING

from .library import Later

if TYPE_CHECKING:
    from . import libpq as libpq
else:
    libpq = Later("pgsub_connect.server.libpq")
