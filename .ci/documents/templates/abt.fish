# Completions of abt for fish. Written by .ci/documents/pages.py from the help of the program.
complete -c abt -f
{lines}
