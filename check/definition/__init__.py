"""The formats and commands in plain Python, written from FORMAT and SCRIPTS in docs/.

It is made to be read beside those pages and to be slow. No module of it knows the program.
"""
