"""The second program's own assertions.

Each module has GROUPS: names, each with a function of `expect`.
"""
