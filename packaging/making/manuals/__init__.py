"""Makes manual pages of the program's help, docs/FORMATS.md and include/clickpull.h. This is Python and no part of what is proved."""
