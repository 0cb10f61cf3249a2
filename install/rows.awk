# Reads a table of options for the files that make completions of it. A row has the columns command,
# word, value, completion and text, and values that follow from them.

BEGIN { FS = "  +"; apostrophe = "\047" }

/^#/ || !NF { next }

{
    rows++
    command[rows] = $1
    word[rows] = $2
    value[rows] = $3
    completion[rows] = $4
    text[rows] = $5
    if (NF != 5) fail("not five columns: " $0)
    if ($2 == "-") names[++commands] = $1
}

function fail(why) {
    print "geostation: " FILENAME ": " why > "/dev/stderr"
    failed = 1
    exit 1
}

function is_option(row) { return word[row] ~ /^-./ }

# The name of an argument is in capitals. Neither an argument nor an option is `-`.
function is_argument(row) { return word[row] ~ /^[A-Z]/ }

function takes_value(row) { return value[row] != "-" }

function may_lack_value(row) { return value[row] ~ /^\[/ }

function may_repeat(row) { return value[row] ~ / \.\.$/ }

# The name of the value only.
function value_name(row,    name) {
    name = value[row]
    gsub(/\[|\]| \.\.$/, "", name)
    return name
}

# The values that a row names, separated by spaces; none if its completion is a word for others.
function choices(row,    list) {
    list = completion[row]
    if (list ~ /^(-|file|interface|command)$/) return ""
    gsub(/,/, " ", list)
    return list
}

function all_commands(    at, list) {
    for (at = 1; at <= commands; at++) list = list (at > 1 ? " " : "") names[at]
    return list
}
