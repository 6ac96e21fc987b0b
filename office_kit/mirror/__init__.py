"""The files that `tools/mirror` writes, and how it asks an office. They are installed with it: they need only Python, and import only audit/ besides."""
