"""Pictures of what clickpull reads and writes. It stands outside the proved part, and reads the program's own files."""
