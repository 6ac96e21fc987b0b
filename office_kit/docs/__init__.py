"""The parts that read documents and sources, and make others of them: blocks, links, definitions, contracts, drawings, pages, releases."""
