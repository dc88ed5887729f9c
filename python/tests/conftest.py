"""How hypothesis runs: the same cases each time, no folder of its own, and no clock: the machine may be busy."""

from hypothesis import HealthCheck, settings

settings.register_profile("gate", deadline=None, database=None, derandomize=True,
                          suppress_health_check=[HealthCheck.too_slow])
settings.load_profile("gate")
