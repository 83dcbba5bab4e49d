"""What `tools/collect` doesn't know how to tell; the statement then stays as it is, to be refused."""


class Unknown(Exception):
    pass
