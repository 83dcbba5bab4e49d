"""What `tools/collect` makes of a CIB: statements and the status of the cluster, in the form that cekpayo reads."""
