"""The page that `tools/report` makes: what the cluster of an input does, to be looked at and passed around."""
