#!/usr/bin/env bash
# Runs the examples of docs/PARK.md and compares. In an indented block, what stands below a line `park ..` is what is printed,
# and a line `...` stands for any lines; a command alone is not run. In the table of mistakes the second column is a
# command, the third a line that it prints, whose end may be left out, ` ..`.
#
#     examples/park_document.sh                                 # holds target/bin/park to the document
#     examples/park_document.sh python3 vectors/park.py print   # holds the document to the oracle
set -euo pipefail
cd "$(dirname "$0")/.."
if [ $# -eq 0 ]; then
    [ -e target/bin/park ] || scripts/program.sh park >&2
    set -- target/bin/park
fi
program=("$@") ran=0 differ=0

# what a command prints; its words are quoted as in a shell
said() {
    eval "set -- ${1#park}"
    "${program[@]}" "$@"
}

# counts an example, and shows it where it is not as expected
count() {
    ran=$((ran + 1))
    if [ "$1" != same ]; then
        differ=$((differ + 1))
        printf '%s\nexpected:\n%s\nprinted:\n%s\n\n' "$2" "$3" "$4"
    fi
}

# an example of a block: the lines are a pattern, in which `...` is any text
block() {
    [ -n "$pattern" ] || return 0
    got=$(said "$command")
    # shellcheck disable=SC2053
    if [[ $got$'\n' == $pattern ]]; then count same; else count other "$command" "$pattern" "$got"; fi
    pattern=
}

mistake=$'^\\| .* \\| `(park .*)` \\| `(.*)` \\|$' command='' pattern=''
while IFS= read -r line; do
    if [[ $line == '    park '[a-z]* ]]; then
        block
        command=${line#    }
    elif [[ $line == '    ...' && -n $command ]]; then
        pattern+='*'
    elif [[ $line == '    '* && -n $command ]]; then
        text=${line#    }
        pattern+=${text//\\/\\\\}$'\n'
    else
        block
        command=
        if [[ $line =~ $mistake ]]; then
            got=$(said "${BASH_REMATCH[1]}")
            expected=$'\n'${BASH_REMATCH[2]}$'\n'
            if [[ $'\n'$got$'\n' == *"${expected%" .."$'\n'}"* ]]; then count same; else count other "${BASH_REMATCH[@]:1:2}" "$got"; fi
        fi
    fi
done <docs/PARK.md
block
echo "$ran examples, $differ differ"
[ "$differ" -eq 0 ]
