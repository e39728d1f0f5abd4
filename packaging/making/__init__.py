"""What installations are made of, a module a part. This is Python and no part of what is proved."""
