"""The limits of a file, for scripts: hcl_token/src/limit.rt, hcl_grammar/src/bounds.rt."""

MAX_TEXT = 16777216
MAX_NESTING = 100
