"""The rules read once more, in Python: every function of the library, written from the rules alone.

Nothing here is taken from the Rust or from the proved code. A content is bytes; an answer is (verdict, rule, severity, reason) in the numbers of
answers.py. lines_test.py holds the line program against it, and oracle/cases makes the worked cases of it."""
