#!/bin/sh
# A clang that keeps the words and the module of the checked compile in the folder KEPT, and hands every other compile on (unproved.py).
for word; do
    case $word in
    *.bc) module=$word ;;
    -fsanitize=address) is_checked=1 ;;
    esac
done
if [ -n "${is_checked-}" ]; then
    cp "$module" "KEPT/module.bc" && printf '%s\n' "$@" >"KEPT/words.new" && mv "KEPT/words.new" "KEPT/words"
    exit 1
fi
exec "KIT/bin/clang" "$@"
