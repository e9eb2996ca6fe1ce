"""Cedar's schemas once more, in plain Python: what documents declare, which documents the format
accepts, and what a new version of a schema takes away."""
