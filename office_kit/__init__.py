"""The parts that the scripts of tools/, bench/ and tests/ share. Here are those that all use, such as the client. Modules of one subject are in its folder."""
