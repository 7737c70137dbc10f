"""A language server for modules: `python -m stratbench.server`, over standard input and output.

It keeps to version 3.17 of the Language Server Protocol, and takes nothing but Python's own library and the program. What is wrong with a
module is what the program says of it; what a name stands for is read by `stratbench.server.reading`. The modules of a folder are taken
together, as the program loads them: all files that end in `.str`, or those that the folder's `stratbench.json` names.
"""
