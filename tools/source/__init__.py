"""Tools for the source: its crates, pages, and the definitions that public
contracts cite."""
