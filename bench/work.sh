# For benches over generated texts, which source it once they have their function `texts`. With a folder as its
# argument such a bench writes its texts there and ends. Else `work` is a temporary folder, which goes with the bench.
if [ $# -gt 0 ]; then
    texts "$1"
    exit
fi
work=$(mktemp -d)
trap 'rm -rf "$work"' EXIT
