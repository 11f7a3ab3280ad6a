"""What the scripts of tools/ share: names, pack files by their labels, and how they are drawn. The Python standard library alone."""
