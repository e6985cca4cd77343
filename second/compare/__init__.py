"""The comparison in bulk: every entry of the face against this program's own function.

face.py calls the library, entries.py says what each entry takes and what is held
against it, cases.py makes the inputs, runs.py goes through them and counts.
"""
