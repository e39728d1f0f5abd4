"""The checks of tests/library, a module a subject. They stand outside what is proved."""
