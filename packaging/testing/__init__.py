"""What packaging/test tests, a module a part. This is Python and no part of what is proved."""
