"""The name and the key of an account."""


class SharedKeyCredentials:
    """A name and a key, in base 64."""

    def __init__(self, account_name, key):
        self.name, self.key = account_name, key
