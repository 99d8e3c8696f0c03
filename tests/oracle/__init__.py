"""The definitions, computed plainly and slowly from whole texts.

What a configuration says, what a database holds, how two databases differ, which report that gives,
and what a whole session answers. Nothing here is shared with the program, so that the two can be
compared.
"""
