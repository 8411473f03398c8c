"""How tests draw their examples: the same in each run, and made smaller where one fails."""

from hypothesis import HealthCheck, settings

ANY = settings(
    derandomize=True,
    deadline=None,
    database=None,
    suppress_health_check=[HealthCheck.too_slow],
)
