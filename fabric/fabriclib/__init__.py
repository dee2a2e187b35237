"""Helpers around spbsim. None of them computes a path: they write lines of the script language, play them through the
program, and follow the rows that it answers."""
