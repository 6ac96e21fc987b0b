"""The rules of `tools/audit`, and how it reads offices and answers. They are installed with it: they need only Python, and import only one another."""
