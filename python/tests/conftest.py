"""The same examples in each run, however slow the machine, and no folder of them."""

from hypothesis import settings

settings.register_profile("same", database=None, deadline=None, derandomize=True)
settings.load_profile("same")
