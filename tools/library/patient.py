"""A plugin of pytest (`-p patient`): no test depends on how fast the machine is, or on chance."""
import contextlib
import os

# The profile that astropy's own settings of the tests choose, too.
NAME = os.environ["HYPOTHESIS_PROFILE"] = "patient"

with contextlib.suppress(ImportError):
    from hypothesis import HealthCheck, settings

    settings.register_profile(NAME, deadline=None, derandomize=True, suppress_health_check=[HealthCheck.too_slow])
    settings.load_profile(NAME)
