# Nothing cites these definitions and lemmas.
python3 docs/unused.py 2>/dev/null | sed 's/$/ isn'\''t cited/'
