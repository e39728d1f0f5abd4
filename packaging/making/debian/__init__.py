"""Makes Debian's packages. This is Python and no part of what is proved."""
