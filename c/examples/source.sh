# Runs the example `source` twice over one store, as over a crash: the second run goes on with numbers above all that the first may have used.
#
# usage: source.sh SOURCE STORE
set -eu
rm -f "$2" "$2.new"
cell_of() {
    printf '%s%060d%s' "$1" 0 "$2" | sed 's/0\{60\}/6a6a6a6a6a6a6a6a6a6a6a6a6a6a6a6a6a6a6a6a6a6a6a6a6a6a6a6a6a6a/'
}
first=$(cell_of 0010064c02045120000000000000000000000001 03fb)
second=$(cell_of 0010064c02045120000000000000000000000041 01fe)
[ "$(printf 'ask 5120\nagain\nemit\nbwd 00\nno thing\n' | "$1" "$2" 1 100)" = "rm $first
rm $first
Zero
Length
Kind" ]
[ "$(printf 'again\nask 5120\n' | "$1" "$2" 1 100)" = "NotAsking
rm $second" ]
# A store that can't be read, or that holds an octet more than a record: the source doesn't start.
printf x >>"$2"
for store in "$2/store" "$2"; do
    [ "$("$1" "$store" 1 100 2>&1 </dev/null)" = "source: Length" ]
done
rm -f "$2"
# A store that can't be written: the source doesn't ask.
[ "$(echo 'ask 5120' | "$1" "$2.none/store" 1 100)" = NotKept ]
