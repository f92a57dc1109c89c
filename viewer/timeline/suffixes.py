"""The suffixes by which the format of a timeline is chosen. They are here so that a page need not load the timeline."""

# Those of which the format is Perfetto's own, and all.
NATIVE = ".pftrace", ".pftrace.gz"
SUFFIXES = *NATIVE, ".json.gz"
