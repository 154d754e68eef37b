#!/bin/sh
# Runs ./paumelu and holds what it prints, and its exit status, to what document 01 and the help say. Prints what differs, and a last line.
set -u
LC_ALL=C
export LC_ALL
cd "$(dirname -- "$0")/.." || exit 2
room=$(mktemp -d) || exit 2
trap 'rm -rf "$room"' EXIT
passed=0 failed=0

# where the program cannot be built, each case would try it again
./paumelu items examples/words.graphql >/dev/null || exit 2

verdict() { # NAME
    if cmp -s "$room/wanted" "$room/got"; then
        passed=$((passed + 1))
    else
        failed=$((failed + 1))
        printf 'differs: %s\n' "$1"
        diff "$room/wanted" "$room/got"
    fi
}

# The text is the first word, as printf writes it, and standard input is what should be printed, with the exit status in its last line.
given() { # TEXT WORDS...
    text=$1
    shift
    cat >"$room/wanted"
    # shellcheck disable=SC2059
    printf "$text" | ./paumelu "$@" >"$room/got" 2>"$room/said"
    echo "status $?" >>"$room/got"
    verdict "$*, of $text"
}

# As given, of what is said on standard error.
complains() { # WORDS...
    cat >"$room/wanted"
    ./paumelu "$@" </dev/null 2>&1 >/dev/null | head -n 1 >"$room/got"
    ./paumelu "$@" </dev/null >/dev/null 2>&1
    echo "status $?" >>"$room/got"
    verdict "$*"
}

given '{a}' items --hex <<'END'
0F00000000000001
1200000010000001
1100000020000001
0000000030000000
status 0
END
given '[1]' value --hex <<'END'
0800000000000000
8D00000000000001
0200000010000000
9400000010000001
4200000010000001
8E00000020000001
4800000000000003
status 0
END
given '' items <<'END'
1  Eof          0  0
status 0
END
given '.{' items <<'END'
1  error 10     0  2  .{
2  Eof          2  2

error 10 at bytes 0 to 2, line 1, column 1: a bad spread: it has three dots
    .{
    ^
status 1
END
given '"""\r\n"""%%' items <<'END'
 1  StringValue   0   8  """\r\n"""
 2  error 1       8   9  %
 3  Eof           9   9

error 1 at bytes 8 to 9, line 2, column 4: an unexpected character
    """%
       ^
status 1
END
given '\r\n\r\n%%' items <<'END'
1  Whitespace   0  4  \r\n\r\n
2  error 1      4  5  %
3  Eof          5  5

error 1 at bytes 4 to 5, line 3, column 1: an unexpected character
    %
    ^
status 1
END
given 'a b' items --limit 2 <<'END'
1  Name         0  1  a
2  Whitespace   1  2   

refusal 4 at byte 2, line 1, column 3: the token limit is reached
    a b
      ^
status 1
END
given 'a' items --limit 1 <<'END'
1  Name         0  1  a

refusal 4 at byte 1, line 1, column 2: the token limit is reached
    a
     ^
status 1
END
given '\t\303\251\377' items <<'END'
refusal 3 at byte 3, line 1, column 3: the text is not UTF-8 from here on
     é\xFF
      ^
status 1
END
given '[]' value --depth 0 <<'END'
 1  LIST_VALUE                                0  0
 2    [                                       0  1  [
 3    ]                                       1  2  ]
 4  /LIST_VALUE                               0  2  []
status 0
END
given '[1]' value --depth 0 <<'END'
refusal 7 at byte 1, line 1, column 2: the depth limit is passed here
    [1]
     ^
status 1
END
given '{a}' value <<'END'
refusal 9 at byte 2, line 1, column 3: no sentence can have this token here
    {a}
      ^
status 1
END
# shellcheck disable=SC2016 # the sign is GraphQL's
given '$a' constant <<'END'
refusal 8 at byte 0, line 1, column 1: a variable where a constant is due
    $a
    ^
status 1
END
given '[a' type <<'END'
refusal 9 at byte 2, line 1, column 3: no sentence can end here
    [a
      ^
status 1
END
given '{a("\\q")}' selection <<'END'
refusal 6 at byte 3, line 1, column 4: error item 14, a bad escape
    {a("\q")}
       ^
status 1
END
given '1' value --depth 501 <<'END'
refusal 1: the depth limit is above 500
status 1
END
given 'the word' part 4 4 <<'END'
wordstatus 0
END
given 'the word' part 4 5 <<'END'
status 0
END

complains <<'END'
paumelu: a command is missing
status 2
END
complains read <<'END'
paumelu: there is no command 'read'
status 2
END
complains items --limit ten <<'END'
paumelu: --limit takes a whole number, and not 'ten'
status 2
END
complains items --deep 3 <<'END'
paumelu: there is no option '--deep'
status 2
END
complains part 3 <<'END'
paumelu: part takes START, LENGTH and FILE
status 2
END
complains items missing.graphql <<'END'
paumelu: there is no file 'missing.graphql'
status 2
END

# the string of the chapter is one item, past 65,535 bytes; it comes back whole by its span
./paumelu items examples/chapter.graphql | sed -n 's/^ *[0-9]*  StringValue *\([0-9]*\)  *\([0-9]*\)  """.*/\1 \2/p' >"$room/span"
read -r start end <"$room/span"
./paumelu part "$start" $((end - start)) examples/chapter.graphql | wc -c | tr -d ' ' >"$room/got"
echo $((end - start)) >"$room/wanted"
verdict "the chapter's string, from $start to $end"

# what a text holds is never markup of its page: the page's own elements are the only ones
./paumelu show examples/markup.graphql | grep -o '<[/a-z][a-z0-9]*' | sort -u | tr '\n' ' ' >"$room/got"
printf '</a </b </body </h1 </head </header </html </li </ol </p </pre </span </style </title </ul <a <b <body <h1 <head <header <html <li <meta <ol <p <pre <span <style <title <ul ' >"$room/wanted"
verdict "the elements of a page"

# a text of 16,777,216 bytes, and one longer
head -c 16777216 /dev/zero | tr '\0' '{' >"$room/long"
./paumelu items "$room/long" | tail -n 1 >"$room/got"
echo '16777217  Eof          16777216  16777216' >"$room/wanted"
verdict "16,777,216 bytes"
printf '{' >>"$room/long"
./paumelu items "$room/long" >"$room/got"
echo 'refusal 2: the text is over 16,777,216 bytes' >"$room/wanted"
verdict "16,777,217 bytes"
# a reader that closes the pipe ends the run
./paumelu items "$room/long" | head -n 1 >"$room/got"
verdict "a closed pipe"
./paumelu value "$room/long" >"$room/got" 2>&1
echo 'paumelu: only items and part take a text of over 1,048,576 bytes' >"$room/wanted"
verdict "a long value"

echo "$passed passed, $failed failed"
[ "$failed" -eq 0 ]
