"""What the program's word `why` tells of a resource, in sentences, and what would change it."""
