"""Makers of stores for measuring: mail stores of any size (mail), and small stores made to be slow (shared, long).

Everything is written from [MS-PST]; section numbers in the docstrings are its own. A store is written to its file
as it is made, so that a large one takes little memory: the blocks as they come, then the B-trees, the maps, the
header."""
