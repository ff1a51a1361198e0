# For ci/shape.sh: reads sources and prints `WHAT FILE NAME NUMBER` for each thing that is above its limit.
# Run with LC_ALL=C; a character is a byte that begins one.
function count(text) {
    gsub(/[\200-\277]/, "", text)
    return length(text)
}

function say(what, name, number, limit) {
    if (number > limit) print what, file, name, number
}

function close_file(text) {
    if (file == "") return
    say("lines", "-", lines, 500)
    for (text in said) if (said[text] > most) most = said[text]
    say("lets", "-", most, 2)
    say("uncommented", "-", bare, 0)
}

FNR == 1 {
    close_file()
    file = FILENAME
    split("", said); split("", told)
    most = bare = lines = body = 0
    clause = last = ""
    is_code = file ~ /\.rt$/
    is_spec = file ~ /\/specs\//
    is_answers = file ~ /Answers\.antt$/
    is_lemmas = file ~ /\/proofs\// && !is_answers
}

{ lines++ }

# The bodies of functions: between a brace that opens one and the brace in the column of `fn`'s line.
is_code && /^ *(pub(\([a-z]+\))? )?(const )?(unsafe )?fn [a-z]/ {
    match($0, /^ */)
    indent = substr($0, 1, RLENGTH)
    name = $0
    sub(/^.*fn /, "", name)
    sub(/[^a-z0-9_].*/, "", name)
    started = 0
    body = 1
}
is_code && body {
    if (started) {
        if ($0 == indent "}") { say("body", name, FNR - started - 1, 40); body = 0 }
    } else if ($0 == indent "{" || ($0 ~ /\{$/ && $0 !~ /(requires|ensures) /)) started = FNR
    else if ($0 ~ /;$/ || $0 ~ /\{.*\}$/ && $0 !~ /(requires|ensures) /) body = 0
}

# Clauses: from `requires` or `ensures` to the brace that ends it, without the ends of lines.
is_code && clause == "" && /^ *(requires|ensures)( [a-z_0-9]+)? \{/ {
    depth = 0
    clause = "-"
    label = $2 ~ /^\{/ ? $1 : $2
    text = ""
}
is_code && clause != "" {
    line = $0
    gsub(/^ +| +$/, "", line)
    text = text == "" ? line : text " " line
    depth += gsub(/\{/, "{", line) - gsub(/\}/, "}", line)
    if (depth <= 0) {
        sub(/^[^{]*\{ */, "", text); sub(/ *\}$/, "", text)
        say("clause", name ":" label, count(text), 150)
        clause = ""
    }
}

# Lemmas: the patterns of an equation, each a word or a text in brackets.
is_lemmas && /^[^ -].* =( |$)/ && !/^(use|abbrev|unfoldable|record|data|pub) / && !/^[^ ]+ :/ {
    line = $0
    sub(/ =( .*)?$/, "", line)
    named = $1
    depth = args = 0
    parts = split(line, part, "")
    inside = 0
    for (at = length(named) + 1; at <= parts; at++) {
        if (part[at] ~ /[({]/) { if (depth == 0) args++; depth++; inside = 1 }
        else if (part[at] ~ /[)}]/) { depth--; inside = 1 }
        else if (part[at] == " ") { if (depth == 0) inside = 0 }
        else if (depth == 0 && !inside) { args++; inside = 1 }
    }
    if (!(named in told)) { told[named] = 1; say("arguments", named, args, 9) }
}

# Answers: how often one `let` is said in a file.
is_answers && /^ *let / { line = $0; gsub(/^ +| +$/, "", line); said[line]++ }

# Definitions: a name of one word has a comment above it.
is_spec && /^(abbrev|unfoldable|record|data)? ?(pub )?[a-zA-Z0-9]+ :/ {
    named = $0
    sub(/^(abbrev|unfoldable|record|data)? ?(pub )?/, "", named)
    sub(/ .*/, "", named)
    if (named !~ /[a-z][A-Z_-]|_/ && last !~ /^--/) bare++
}
{ last = $0 }

END { close_file() }
