# What run.sh and serve.sh begin with: the program that the first argument names, this folder as $club, an empty folder to
# work in, and the comparison of what comes out with the files here.
program=$(command -v "${1:-voldkaumi}")
program=$(realpath "$program")
club=$(cd "$(dirname "$0")" && pwd)
folder=$(mktemp -d)
trap 'rm -rf "$folder"' EXIT
cd "$folder"
umask 077

step() { # NAME EXPECTED FILE: the step's output is a file of the example
    cmp "$2" "$3" && echo "$1: as expected"
}
