# Makes the completion for fish: awk -v program=NAME -f rows.awk -f fish.awk NAME.options.

# The condition under which a row applies.
function condition_of(row) {
    if (commands == 0) return ""
    if (command[row] == "-") return " -n __fish_use_subcommand"
    return " -n " quoted("__fish_seen_subcommand_from " command[row])
}

# An option is written by its long and its short form.
function forms_of(row,    at, count, forms, list) {
    count = split(word[row], forms, ", ")
    for (at = 1; at <= count; at++) {
        if (sub(/^--/, " -l ", forms[at]) == 0) sub(/^-/, " -s ", forms[at])
        list = list forms[at]
    }
    return list
}

# What completes a value or an argument: files, words of a list, or nothing.
function source_of(row) {
    if (completion[row] == "file") return " -F"
    if (completion[row] == "interface") return " -f -a " quoted("(ls /sys/class/net 2> /dev/null)")
    if (completion[row] == "command") return " -f -a " quoted(all_commands())
    if (choices(row) != "") return " -f -a " quoted(choices(row))
    return " -f"
}

function print_row(row,    line) {
    line = "complete -c " program
    if (word[row] == "-") {
        line = line " -n __fish_use_subcommand -a " command[row]
    } else if (is_option(row)) {
        line = line condition_of(row) forms_of(row)
        if (takes_value(row)) line = line (may_lack_value(row) ? "" : " -r") source_of(row)
    } else {
        line = line condition_of(row) source_of(row)
        if (completion[row] == "file") { print line; return }
    }
    print line " -d " quoted(text[row])
}

# A text as a word of fish, with a backslash before each apostrophe.
function quoted(string) {
    gsub(apostrophe, "\\" apostrophe, string)
    return apostrophe string apostrophe
}

END {
    if (failed) exit 1
    print "# The completion of " program " for fish, made of a table of its options."
    print "complete -c " program " -f"
    for (row = 1; row <= rows; row++) {
        # There is nothing to say to fish about an argument without a completion.
        if (is_option(row) || word[row] == "-" || completion[row] != "-") print_row(row)
    }
}
