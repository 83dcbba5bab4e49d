"""What `cekpayo` says to people about an input, beside the answer of the proved program."""
