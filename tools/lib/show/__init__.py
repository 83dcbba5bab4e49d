"""What `tools/dot`, `tools/json`, `tools/summary` and `tools/what-if` make of the lines that the program writes."""
